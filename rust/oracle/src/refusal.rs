//! The refusals 1 to 10, read from document 01 as plainly as can be. It is
//! quadratic: it looks back for each parent and lists all earlier siblings.

/// How many words a record has.
pub const RECORD_WORDS: usize = 12;

pub(crate) const KIND: usize = 0;
pub(crate) const LEVEL: usize = 1;
pub(crate) const FLAG: usize = 2;
pub(crate) const START: usize = 3;
pub(crate) const END: usize = 4;
pub(crate) const A: usize = 5;
pub(crate) const B: usize = 6;
pub(crate) const C: usize = 7;
/// The start of the first text and of the second; each has its length behind.
pub(crate) const TEXTS: [usize; 2] = [8, 10];

pub(crate) fn is_block(kind: u32) -> bool {
    (1..=17).contains(&kind)
}

pub(crate) fn is_inline(kind: u32) -> bool {
    (31..=53).contains(&kind)
}

fn is_known(kind: u32) -> bool {
    is_block(kind) || (20..=24).contains(&kind) || is_inline(kind)
}

pub(crate) fn word(words: &[u32], record: usize, field: usize) -> u32 {
    words[record * RECORD_WORDS + field]
}

/// "Parent: nearest earlier record one level up." None is the sheet.
fn parent(words: &[u32], record: usize) -> Option<usize> {
    let level = word(words, record, LEVEL);
    (0..record)
        .rev()
        .find(|&earlier| word(words, earlier, LEVEL) + 1 == level)
}

/// The kinds of the earlier records with the same parent, in order.
fn earlier_siblings(words: &[u32], record: usize, parent: Option<usize>) -> Vec<u32> {
    let level = word(words, record, LEVEL);
    (parent.map_or(0, |parent| parent + 1)..record)
        .filter(|&earlier| word(words, earlier, LEVEL) == level)
        .map(|earlier| word(words, earlier, KIND))
        .collect()
}

/// "Directives: attributes, then inlines, then (container only) blocks."
fn rank(kind: u32) -> u32 {
    match kind {
        24 => 0,
        _ if is_inline(kind) => 1,
        _ => 2,
    }
}

/// "Children: blocks under the sheet, quote, alert, item and footnote
/// definition; items under list; rows, then cells; inlines under paragraph,
/// heading, cell and what `Inline::children` lists."
fn is_placed(words: &[u32], record: usize) -> bool {
    let kind = word(words, record, KIND);
    let Some(above) = parent(words, record) else {
        return is_block(kind);
    };
    let siblings = || earlier_siblings(words, record, Some(above));
    match word(words, above, KIND) {
        4 | 5 | 11 | 20 => is_block(kind),
        6 => kind == 20,
        12 => kind == 21,
        21 => kind == 22,
        1 | 2 | 22 | 34..=37 | 40 | 42..=44 | 50 => is_inline(kind),
        directive @ (15 | 16 | 52) => {
            (kind == 24 || is_inline(kind) || directive == 16 && is_block(kind))
                && siblings()
                    .iter()
                    .all(|&sibling| rank(sibling) <= rank(kind))
        }
        9 => {
            // "a third HTML tag, or content before the second"
            let tags = siblings().iter().filter(|&&sibling| sibling == 23).count();
            if kind == 23 {
                tags < 2
            } else if word(words, above, A) == 0 {
                is_block(kind) && tags >= 2
            } else {
                is_inline(kind) && tags >= 2
            }
        }
        _ => false,
    }
}

/// Whether the record names a first text, and a second.
fn names(words: &[u32], record: usize) -> [bool; 2] {
    match word(words, record, KIND) {
        5 => [word(words, record, A) == 1, false],
        7 => [true, word(words, record, B) == 1],
        10 | 23 | 43 | 44 | 49 | 51 => [true, true],
        11 | 14..=16 | 24 | 31 | 39..=42 | 45 | 48 | 52 | 53 => [true, false],
        _ => [false, false],
    }
}

/// "value out of range, unused word not 0"
fn has_good_fields(words: &[u32], record: usize) -> bool {
    let [kind, flag, start, end, a, b, c] =
        [KIND, FLAG, START, END, A, B, C].map(|field| word(words, record, field));
    let span = match flag {
        0 => start == 0 && end == 0,
        1 => kind != 24,
        _ => false,
    };
    let a_fits = match kind {
        2 => a <= 255,
        5 | 6 | 7 | 9 | 14 | 34 | 35 | 47 | 48 => a <= 1,
        10 | 20 | 40 | 42 => a <= 2,
        12 => true,
        32 => char::from_u32(a).is_some(),
        _ => a == 0,
    };
    let b_fits = match kind {
        6 => b <= 4,
        7 | 20 => b <= 1,
        48 if a == 0 => b <= 255,
        _ => b == 0,
    };
    let c_fits = match kind {
        6 => c <= 1,
        20 if b == 1 => true,
        _ => c == 0,
    };
    let absent = |index: usize| {
        let at = TEXTS[index];
        names(words, record)[index]
            || word(words, record, at) == 0 && word(words, record, at + 1) == 0
    };
    span && a_fits && b_fits && c_fits && absent(0) && absent(1)
}

/// The parts of `text` that the record names; None where one is outside.
fn parts<'a>(words: &[u32], record: usize, text: &'a [u8]) -> Option<Vec<&'a [u8]>> {
    let named = names(words, record);
    (0..2)
        .filter(|&index| named[index])
        .map(|index| {
            let start = word(words, record, TEXTS[index]) as usize;
            let length = word(words, record, TEXTS[index] + 1) as usize;
            text.get(start..start + length)
        })
        .collect()
}

/// How many HTML tags stand right under the record.
fn tags(words: &[u32], record: usize) -> usize {
    let level = word(words, record, LEVEL);
    (record + 1..words.len() / RECORD_WORDS)
        .take_while(|&later| word(words, later, LEVEL) > level)
        .filter(|&later| word(words, later, LEVEL) == level + 1 && word(words, later, KIND) == 23)
        .count()
}

/// The number of the refusal and its record, counted from 0; 0 and 0 where
/// the sheet is accepted. "Order: 1, 2, 3; then 4 to 9 record by record; then
/// 10 over all records, giving the first such container".
pub fn refusal(words: &[u32], text: &[u8]) -> (u32, usize) {
    if !words.len().is_multiple_of(RECORD_WORDS) {
        return (1, 0);
    }
    let records = words.len() / RECORD_WORDS;
    if records > 65_535 {
        return (2, 0);
    }
    if text.len() > 16_777_216 {
        return (3, 0);
    }
    let mut before = 0;
    for record in 0..records {
        let level = word(words, record, LEVEL);
        if !is_known(word(words, record, KIND)) {
            return (4, record);
        }
        if level == 0 || level > 64 || level > before + 1 {
            return (5, record);
        }
        if !is_placed(words, record) {
            return (6, record);
        }
        if !has_good_fields(words, record) {
            return (7, record);
        }
        let Some(parts) = parts(words, record, text) else {
            return (8, record);
        };
        if parts.iter().any(|part| core::str::from_utf8(part).is_err()) {
            return (9, record);
        }
        before = level;
    }
    (0..records)
        .find(|&record| word(words, record, KIND) == 9 && tags(words, record) < 2)
        .map_or((0, 0), |record| (10, record))
}
