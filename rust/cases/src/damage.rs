//! Sheets that were good, with something done to them.

use crate::{Numbers, Sheet, RECORD_WORDS};

/// Words that are at a bound of some field, or past it.
const WORDS: [u32; 30] = [
    0,
    1,
    2,
    3,
    4,
    5,
    6,
    7,
    9,
    12,
    17,
    18,
    20,
    23,
    24,
    25,
    31,
    53,
    54,
    64,
    65,
    255,
    256,
    0xD7FF,
    0xD800,
    0xDFFF,
    0x10_FFFF,
    0x11_0000,
    1_000_000_000,
    u32::MAX,
];

/// The sheet with one, two or three things done to it.
pub fn damaged(numbers: &mut Numbers, mut sheet: Sheet) -> Sheet {
    for _ in 0..numbers.one(&[1, 1, 1, 1, 2, 3]) {
        damage(numbers, &mut sheet);
    }
    sheet
}

fn damage(numbers: &mut Numbers, (words, text): &mut Sheet) {
    let records = words.len() / RECORD_WORDS;
    if records == 0 {
        words.push(numbers.word());
        return;
    }
    let record = numbers.index(records) * RECORD_WORDS;
    match numbers.below(16) {
        0..=3 => change(numbers, words),
        4 => words[record] = numbers.below(56),
        5 | 6 => level(numbers, &mut words[record + 1]),
        7 => swap(numbers, words, record),
        8 => drop(words.drain(record..record + RECORD_WORDS)),
        9 => repeat(words, record),
        10 => words.truncate(numbers.index(words.len())),
        11 => words.truncate(record),
        12 => words.extend((0..=numbers.below(13)).map(|word| word % 3)),
        13 => text.truncate(numbers.index(text.len() + 1)),
        14 => part(numbers, &mut words[record + 8..record + RECORD_WORDS]),
        _ => byte(numbers, text),
    }
}

/// Any word, to a bound, by one, or to anything.
fn change(numbers: &mut Numbers, words: &mut [u32]) {
    let at = numbers.index(words.len());
    words[at] = match numbers.below(4) {
        0 => words[at].wrapping_add(1),
        1 => words[at].wrapping_sub(1),
        2 => numbers.word(),
        _ => numbers.one(&WORDS),
    };
}

fn level(numbers: &mut Numbers, level: &mut u32) {
    *level = match numbers.below(4) {
        0 => level.wrapping_add(1),
        1 => level.wrapping_sub(1),
        2 => level.wrapping_add(2),
        _ => numbers.below(66),
    };
}

/// The record changes places with another.
fn swap(numbers: &mut Numbers, words: &mut [u32], record: usize) {
    let other = numbers.index(words.len() / RECORD_WORDS) * RECORD_WORDS;
    for field in 0..RECORD_WORDS {
        words.swap(record + field, other + field);
    }
}

/// The record stands twice.
fn repeat(words: &mut Vec<u32>, record: usize) {
    let copy = words[record..record + RECORD_WORDS].to_vec();
    words.splice(record..record, copy);
}

/// A start or a length of a text.
fn part(numbers: &mut Numbers, parts: &mut [u32]) {
    let at = numbers.index(parts.len());
    parts[at] = match numbers.below(4) {
        0 => parts[at].wrapping_add(1),
        1 => parts[at].wrapping_sub(1),
        2 => numbers.below(40),
        _ => u32::MAX - numbers.below(3),
    };
}

/// A byte that is no character, or the beginning of one, or its rest.
fn byte(numbers: &mut Numbers, text: &mut [u8]) {
    if text.is_empty() {
        return;
    }
    let at = numbers.index(text.len());
    text[at] = numbers.one(&[0xFF, 0xC3, 0x80, 0xED, 0xF4, 0xE2, b'\n', b'|']);
}

#[cfg(test)]
mod tests {
    use super::*;
    use crate::random;

    #[test]
    fn most_differ() {
        let mut numbers = Numbers::new(0);
        let same = (0..1000).filter(|&seed| {
            let sheet = random::tree(seed, 12);
            damaged(&mut numbers, sheet.clone()) == sheet
        });
        assert!(same.count() < 250);
    }
}
