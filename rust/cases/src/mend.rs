//! Sheets that the setting machine stops at, with what stopped it mended, so
//! that it comes further.

use crate::{plain, Numbers, Record, Sheet, RECORD_WORDS};

/// The accepted sheet with the stop of this number at this record mended: so
/// that the record stays where that is easily done, else without it and what
/// is under it.
pub fn mended(
    numbers: &mut Numbers,
    (mut words, text): Sheet,
    number: u32,
    record: usize,
) -> Sheet {
    let at = record * RECORD_WORDS;
    let level = words[at + 1];
    match number {
        2 => fill_row(&mut words, record),
        6 => words[at + 5] = 1 + numbers.below(6),
        7 => words[at + 7] = 1_000_000_000 - 1 - numbers.below(2),
        8 => words[at + 6..at + 8].fill(0),
        9 if level < 64 => insert(&mut words, record + 1, plain(20, level + 1)),
        10 if level < 64 => insert(&mut words, record + 1, plain(33, level + 1)),
        13 => cut_line(&mut words[at..at + RECORD_WORDS], &text),
        14 => mark_otherwise(numbers, &mut words[at..at + RECORD_WORDS]),
        _ => remove(&mut words, record),
    }
    (words, text)
}

fn insert(words: &mut Vec<u32>, record: usize, new: Record) {
    let at = record * RECORD_WORDS;
    words.splice(at..at, new);
}

/// Where the record and what is under it ends.
fn end(words: &[u32], record: usize) -> usize {
    let level = words[record * RECORD_WORDS + 1];
    let later = words.chunks(RECORD_WORDS).skip(record + 1);
    record + 1 + later.take_while(|later| later[1] > level).count()
}

fn remove(words: &mut Vec<u32>, record: usize) {
    let end = end(words, record);
    words.drain(record * RECORD_WORDS..end * RECORD_WORDS);
}

/// A row with too few cells: its table aligns as many columns as it has, or
/// it gets a cell.
fn fill_row(words: &mut Vec<u32>, row: usize) {
    let level = words[row * RECORD_WORDS + 1];
    let end = end(words, row);
    let under = words[row * RECORD_WORDS..end * RECORD_WORDS].chunks(RECORD_WORDS);
    let cells = under.filter(|record| record[0] == 22).count();
    let table = words[..row * RECORD_WORDS]
        .chunks_mut(RECORD_WORDS)
        .rfind(|record| record[0] == 12);
    match table {
        Some(table) if cells > 0 && table[5] > 3 => table[5] = cells as u32,
        _ if level < 64 => insert(words, end, plain(22, level + 1)),
        _ => remove(words, row),
    }
}

/// The first text up to its first line ending.
fn cut_line(record: &mut [u32], text: &[u8]) {
    let part = &text[record[8] as usize..][..record[9] as usize];
    let kept = part.iter().take_while(|byte| !b"\r\n".contains(byte));
    record[9] = kept.count() as u32;
}

/// Another written marker of a list, bullet or ordered as it is.
fn mark_otherwise(numbers: &mut Numbers, list: &mut [u32]) {
    list[6] = match (list[5], list[6]) {
        (0, 1) => 2,
        (0, _) => 1 + numbers.below(2),
        (_, 4) => 3,
        _ => 4,
    };
}
