//! Sheets and the answer of document 01's plain reading for each.

use cases::{home, plain, Numbers, Sheet};
use oracle::RECORD_WORDS;

/// The text that the sheets with texts name parts of: one byte, three, two, one.
const TEXT: &[u8] = "a€éb".as_bytes();

/// All kinds that document 01 lists.
fn kinds() -> impl Iterator<Item = u32> + Clone {
    (1..=17).chain(20..=24).chain(31..=53)
}

/// At least one kind of each group of children.
const CHILDREN: [u32; 15] = [1, 4, 6, 9, 12, 17, 20, 21, 22, 23, 24, 31, 34, 47, 53];

/// Parents, each with what it stands under; the next level is their children's.
fn parents() -> Vec<Vec<[u32; RECORD_WORDS]>> {
    let mut inlines = plain(9, 1);
    inlines[5] = 1;
    let mut all = vec![
        vec![],
        vec![plain(6, 1)],
        vec![plain(6, 1), plain(20, 2)],
        vec![plain(12, 1)],
        vec![plain(12, 1), plain(21, 2)],
        vec![plain(12, 1), plain(21, 2), plain(22, 3)],
        vec![plain(9, 1)],
        vec![plain(9, 1), plain(23, 2)],
        vec![plain(9, 1), plain(23, 2), plain(23, 2)],
        vec![plain(9, 1), plain(23, 2), plain(23, 2), plain(1, 2)],
        vec![inlines, plain(23, 2), plain(23, 2)],
        vec![inlines, plain(23, 2), plain(23, 2), plain(31, 2)],
    ];
    for block in [1, 2, 3, 4, 5, 7, 10, 11, 15, 16, 17] {
        all.push(vec![plain(block, 1)]);
    }
    for inline in [31, 34, 37, 40, 42, 43, 44, 46, 50, 52] {
        all.push(vec![plain(1, 1), plain(inline, 2)]);
    }
    all.push(vec![plain(9, 1), plain(23, 2), plain(24, 3)]);
    all
}

/// The level of the children of the last of these.
fn below(parents: &[[u32; RECORD_WORDS]]) -> u32 {
    let open = parents.iter().rev().find(|record| record[0] != 23);
    match parents.last() {
        Some(last) if last[0] == 23 => open.map_or(1, |record| record[1] + 1),
        Some(last) if last[0] == 1 && parents.len() == 4 => last[1],
        Some(last) if last[0] == 31 && parents.len() == 4 => last[1],
        Some(last) => last[1] + 1,
        None => 1,
    }
}

/// A record with its text words, over [`TEXT`].
fn push(sheets: &mut Vec<Sheet>, records: &[[u32; RECORD_WORDS]]) {
    sheets.push((records.concat(), TEXT.to_vec()));
}

fn one_field(sheets: &mut Vec<Sheet>) {
    let a = [
        1,
        2,
        3,
        255,
        256,
        0xD7FF,
        0xD800,
        0xDFFF,
        0xE000,
        0x10_FFFF,
        0x11_0000,
        u32::MAX,
    ];
    for kind in kinds() {
        let before = home(kind);
        let base = plain(kind, before.len() as u32 + 1);
        let mut with = |changes: &[(usize, u32)]| {
            let mut record = base;
            for &(field, value) in changes {
                record[field] = value;
            }
            let mut records = before.clone();
            records.push(record);
            push(sheets, &records);
        };
        with(&[]);
        with(&[(2, 1)]);
        with(&[(2, 1), (3, 7), (4, 5)]);
        with(&[(2, 2)]);
        with(&[(3, 1)]);
        with(&[(4, 1)]);
        a.iter().for_each(|&value| with(&[(5, value)]));
        [1, 2, 5, 256].iter().for_each(|&value| with(&[(6, value)]));
        [1, 2].iter().for_each(|&value| with(&[(7, value)]));
        with(&[(6, 1), (7, 999_999_999)]);
        with(&[(5, 1), (6, 1)]);
        with(&[(5, 1), (8, 0), (9, 1)]);
        with(&[(6, 1), (10, 0), (11, 1)]);
        for field in 8..=11 {
            with(&[(field, 1)]);
        }
    }
}

/// Parts of the text that lie inside it or not, cut inside a character or not.
fn text_parts(sheets: &mut Vec<Sheet>) {
    for start in 0..=7 {
        for len in 0..=7 {
            for first in [true, false] {
                let mut record = plain(43, 2);
                let at = if first { 8 } else { 10 };
                record[at] = start;
                record[at + 1] = len;
                push(sheets, &[plain(1, 1), record]);
            }
        }
    }
    // The second text outside beside a first that is not UTF-8.
    let mut record = plain(43, 2);
    record[8..12].copy_from_slice(&[1, 1, 7, 1]);
    push(sheets, &[plain(1, 1), record]);
}

/// Records of random kinds that mostly stand where they may, some damaged.
fn random(sheets: &mut Vec<Sheet>, count: usize) {
    let mut numbers = Numbers(0x9E37_79B9_7F4A_7C15);
    let known: Vec<u32> = kinds().collect();
    while sheets.len() < count {
        let mut words: Vec<u32> = Vec::new();
        for _ in 0..numbers.below(9) + 2 {
            let last = words.len().checked_sub(RECORD_WORDS);
            let level = last.map_or(1, |at| numbers.below(words[at + 1] + 1) + 1);
            // Try a few kinds until one is accepted so far, or take the last.
            for attempt in 0..12 {
                let kind = known[numbers.below(known.len() as u32) as usize];
                let mut trial = words.clone();
                trial.extend(plain(kind, level));
                let (number, _) = oracle::refusal(&trial, TEXT);
                if number == 0 || number == 10 || attempt == 11 {
                    words = trial;
                    break;
                }
            }
        }
        if numbers.below(2) == 0 {
            let at = numbers.below(words.len() as u32) as usize;
            words[at] = numbers.below(4);
        }
        sheets.push((words, TEXT.to_vec()));
    }
}

/// Every stored sheet, in a fixed order.
pub fn all() -> Vec<Sheet> {
    let mut sheets = vec![
        (vec![], vec![]),
        (vec![0; 11], vec![]),
        (vec![0; 13], vec![]),
    ];
    for kind in 0..=60 {
        for level in 0..=2 {
            sheets.push((plain(kind, level).to_vec(), vec![]));
        }
    }
    for depth in [3, 64, 65] {
        let chain: Vec<_> = (1..=depth).map(|level| plain(4, level)).collect();
        sheets.push((chain.concat(), vec![]));
    }
    sheets.push(([plain(4, 1), plain(4, 3)].concat(), vec![]));
    sheets.push(([plain(4, 1), plain(4, 2), plain(4, 4)].concat(), vec![]));
    for parent in parents() {
        for kind in CHILDREN {
            let mut records = parent.clone();
            records.push(plain(kind, below(&parent)));
            push(&mut sheets, &records);
        }
    }
    for directive in [plain(15, 1), plain(16, 1)] {
        for first in [24, 31, 1] {
            for second in [24, 31, 1] {
                for third in [24, 31, 1] {
                    let children = [first, second, third].map(|kind| plain(kind, 2));
                    push(&mut sheets, &[&[directive][..], &children].concat());
                }
            }
        }
    }
    one_field(&mut sheets);
    text_parts(&mut sheets);
    let count = sheets.len() + 30;
    random(&mut sheets, count);
    sheets
}

#[cfg(test)]
mod tests {
    use super::*;

    /// Every refusal but those of long sheets and texts is among the answers.
    #[test]
    fn every_answer_occurs() {
        let mut counts = [0; 11];
        for (words, text) in all() {
            counts[oracle::refusal(&words, &text).0 as usize] += 1;
        }
        for (number, count) in counts.iter().enumerate() {
            assert_eq!(*count == 0, number == 2 || number == 3, "{counts:?}");
        }
    }
    /// Every accepted sheet has a tree, whose list is made of whole entries.
    #[test]
    fn accepted_sheets_have_lists() {
        for (words, text) in all() {
            if oracle::refusal(&words, &text) != (0, 0) {
                continue;
            }
            let list = oracle::list(&words, &text);
            let mut rest = &list[..];
            while let [rule, flag, _, _, length, after @ ..] = rest {
                assert!((1..=56).contains(rule) && *flag <= 1 && *length >= 1);
                rest = &after[*length as usize..];
            }
            assert!(rest.is_empty());
        }
    }
}
