//! The refusals 1 to 10 in plain Rust, in one pass: what a Rust setter would
//! test of a sheet before it sets it.

use std::str::from_utf8;

use reedsander::RECORD_WORDS;

type Words = [u32; RECORD_WORDS];

/// No record is deeper.
const LEVELS: usize = 64;

/// A record that others may stand under; the first of a stack is the sheet.
#[derive(Clone, Copy, Default)]
struct Parent {
    record: usize,
    kind: u32,
    a: u32,
    /// The group of a directive's last child: attributes, inlines, blocks.
    group: u32,
    /// How many HTML tags are under it.
    tags: u32,
}

/// Number and record of the refusal; 0 and 0 where the sheet is accepted.
pub fn refusal(sheet: &[u32], text: &[u8]) -> (u32, usize) {
    let (records, []) = sheet.as_chunks::<RECORD_WORDS>() else {
        return (1, 0);
    };
    if records.len() > 65_535 {
        return (2, 0);
    }
    if text.len() > 16_777_216 {
        return (3, 0);
    }
    let mut open = [Parent::default(); LEVELS + 1];
    let mut depth = 0;
    let mut missing = None;
    for (record, words) in records.iter().enumerate() {
        let [kind, level, ..] = *words;
        let level = level as usize;
        if !is_block(kind) && !(20..=24).contains(&kind) && !is_inline(kind) {
            return (4, record);
        }
        if level == 0 || level > LEVELS || level > depth + 1 {
            return (5, record);
        }
        while depth >= level {
            note_missing(&open[depth], &mut missing);
            depth -= 1;
        }
        let parent = &mut open[depth];
        if !is_placed(kind, parent) {
            return (6, record);
        }
        let number = words_refusal(words, text);
        if number != 0 {
            return (number, record);
        }
        parent.group = group(kind);
        parent.tags += u32::from(kind == 23);
        depth = level;
        open[depth] = Parent {
            record,
            kind,
            a: words[5],
            ..Parent::default()
        };
    }
    for parent in &open[1..=depth] {
        note_missing(parent, &mut missing);
    }
    missing.map_or((0, 0), |record| (10, record))
}

/// The first container with fewer than two tags.
fn note_missing(parent: &Parent, missing: &mut Option<usize>) {
    if parent.kind == 9 && parent.tags < 2 {
        let first = missing.map_or(parent.record, |first| first.min(parent.record));
        *missing = Some(first);
    }
}

fn is_block(kind: u32) -> bool {
    (1..=17).contains(&kind)
}

fn is_inline(kind: u32) -> bool {
    (31..=53).contains(&kind)
}

fn group(kind: u32) -> u32 {
    match kind {
        24 => 0,
        31..=53 => 1,
        _ => 2,
    }
}

fn is_placed(kind: u32, parent: &Parent) -> bool {
    match parent.kind {
        0 | 4 | 5 | 11 | 20 => is_block(kind),
        6 => kind == 20,
        12 => kind == 21,
        21 => kind == 22,
        1 | 2 | 22 | 34..=37 | 40 | 42..=44 | 50 => is_inline(kind),
        15 | 16 | 52 => {
            let sort = kind == 24 || is_inline(kind) || parent.kind == 16 && is_block(kind);
            sort && parent.group <= group(kind)
        }
        9 if kind == 23 => parent.tags < 2,
        9 if parent.a == 0 => parent.tags == 2 && is_block(kind),
        9 => parent.tags == 2 && is_inline(kind),
        _ => false,
    }
}

/// The refusal 7, 8 or 9 of a record by its own words, or 0.
fn words_refusal(words: &Words, text: &[u8]) -> u32 {
    let named = named(words);
    if !has_good_fields(words, named) {
        return 7;
    }
    let parts = [(8, named[0]), (10, named[1])].map(|(at, named)| {
        let (start, length) = (words[at] as usize, words[at + 1] as usize);
        match named {
            true => text.get(start..start + length),
            false => Some(&[][..]),
        }
    });
    match parts {
        [Some(first), Some(second)] if from_utf8(first).is_ok() && from_utf8(second).is_ok() => 0,
        [Some(_), Some(_)] => 9,
        _ => 8,
    }
}

/// Whether the record names a first text, and a second.
fn named(words: &Words) -> [bool; 2] {
    match words[0] {
        5 => [words[5] == 1, false],
        7 => [true, words[6] == 1],
        10 | 23 | 43 | 44 | 49 | 51 => [true, true],
        11 | 14..=16 | 24 | 31 | 39..=42 | 45 | 48 | 52 | 53 => [true, false],
        _ => [false, false],
    }
}

fn has_good_fields(words: &Words, named: [bool; 2]) -> bool {
    let [kind, _, flag, start, end, a, b, c, ..] = *words;
    let span = match flag {
        0 => start == 0 && end == 0,
        1 => kind != 24,
        _ => false,
    };
    let most_a = match kind {
        2 => 255,
        5 | 6 | 7 | 9 | 14 | 34 | 35 | 47 | 48 => 1,
        10 | 20 | 40 | 42 => 2,
        12 => u32::MAX,
        32 => 0x10_FFFF,
        _ => 0,
    };
    let most_b = match kind {
        6 => 4,
        7 | 20 => 1,
        48 if a == 0 => 255,
        _ => 0,
    };
    let most_c = match kind {
        6 => 1,
        20 if b == 1 => u32::MAX,
        _ => 0,
    };
    let surrogate = kind == 32 && (0xD800..=0xDFFF).contains(&a);
    let texts = (named[0] || words[8..10] == [0, 0]) && (named[1] || words[10..] == [0, 0]);
    span && a <= most_a && !surrogate && b <= most_b && c <= most_c && texts
}
