//! The setting machine in plain Rust, as fast as it comes without effort: one
//! pass over an accepted sheet, with the few counts that the stops read kept
//! for each open record. Nothing is looked for twice.

use reedsander::RECORD_WORDS;

/// No record is deeper.
const LEVELS: usize = 64;

/// A record that is open, and what its children so far say. The first of a
/// stack is the sheet itself.
#[derive(Clone, Copy, Default)]
struct Open {
    record: usize,
    kind: u32,
    a: u32,
    /// How many children it has.
    children: u32,
    /// The kind of the last child.
    last: u32,
    /// The written marker of the last child but for blank lines, where that
    /// is a list.
    marker: Option<u8>,
    /// The mark of the next item, where this is an ordered list that has one.
    next: u32,
    /// Whether a child is no empty text.
    filled: bool,
    /// Whether what is under it must stay on one line.
    one_line: bool,
    /// Whether it is, or stands under, a link or a link reference.
    in_link: bool,
}

/// The answer of `reedsander_set` for a sheet that is accepted, with its
/// marks.
pub fn set(sheet: &[u32], text: &[u8], marks: &mut [u32]) -> u64 {
    let (records, _) = sheet.as_chunks::<RECORD_WORDS>();
    let mut open = [Open::default(); LEVELS + 1];
    let mut depth = 0;
    for (record, words) in records.iter().enumerate() {
        let level = words[1] as usize;
        while depth >= level {
            if let Some(stop) = closing_stop(&open[depth], open[depth - 1].a) {
                return answer(stop, open[depth].record);
            }
            depth -= 1;
        }
        let table = open[depth.saturating_sub(1)].a;
        if let Some(stop) = opening_stop(words, text, &open[depth], table) {
            return answer(stop, record);
        }
        let mark = mark(words, &open[depth]);
        marks[record] = mark;
        note_child(&mut open[depth], words, mark);
        open[depth + 1] = opened(record, words, &open[depth]);
        depth += 1;
    }
    while depth > 0 {
        if let Some(stop) = closing_stop(&open[depth], open[depth - 1].a) {
            return answer(stop, open[depth].record);
        }
        depth -= 1;
    }
    answer(0, records.len())
}

fn answer(number: u32, low: usize) -> u64 {
    u64::from(number) << 32 | low as u64
}

/// The stop at the opening of a record, under its parent; `table` is the A of
/// what is around that.
fn opening_stop(
    words: &[u32; RECORD_WORDS],
    text: &[u8],
    parent: &Open,
    table: u32,
) -> Option<u32> {
    let [kind, level, .., a, b, c, start, length, _, _] = *words;
    let ordered = parent.a == 1;
    let stop = match kind {
        2 if !(1..=6).contains(&a) => 6,
        6 if parent.marker == Some(written_marker(a, b)) => 14,
        14 if level > 1 => 12,
        20 if b == 1 && ordered && c > 999_999_999 => 7,
        20 if b == 1 && !ordered => 8,
        22 if parent.children >= table => 1,
        31 | 39 if holds_line_ending(&text[start as usize..][..length as usize]) => 13,
        40 | 41 | 43 | 51 if parent.in_link => 5,
        46 | 47 if parent.one_line => 4,
        46 | 47 if (kind == 46 || a == 1) && matches!(parent.last, 46 | 47) => 11,
        _ => return None,
    };
    Some(stop)
}

/// The stop at the closing of a record; `table` is the A of what is around
/// it.
fn closing_stop(open: &Open, table: u32) -> Option<u32> {
    let stop = match open.kind {
        1 | 34..=37 if !open.filled => 10,
        6 if open.children == 0 => 9,
        12 if open.children == 0 || open.a == 0 => 3,
        21 if open.children < table => 2,
        _ => return None,
    };
    Some(stop)
}

fn mark(words: &[u32; RECORD_WORDS], parent: &Open) -> u32 {
    let [kind, .., a, b, c, _, _, _, _] = *words;
    match kind {
        2 => a,
        20 if parent.a == 1 && parent.children > 0 => parent.next,
        20 if parent.a == 1 && b == 1 => c,
        20 if parent.a == 1 => 1,
        22 => parent.children + 1,
        _ => 0,
    }
}

/// What a parent keeps of a child that is opened.
fn note_child(parent: &mut Open, words: &[u32; RECORD_WORDS], mark: u32) {
    let [kind, .., a, b, _, _, length, _, _] = *words;
    parent.children += 1;
    parent.last = kind;
    parent.next = mark + 1;
    parent.filled |= kind != 31 || length > 0;
    if kind != 17 {
        parent.marker = (kind == 6).then(|| written_marker(a, b));
    }
}

fn opened(record: usize, words: &[u32; RECORD_WORDS], parent: &Open) -> Open {
    let [kind, .., a, _, _, _, _, _, _] = *words;
    Open {
        record,
        kind,
        a,
        one_line: match kind {
            15 | 16 | 22 => true,
            31..=53 => parent.one_line,
            _ => false,
        },
        in_link: parent.in_link || matches!(kind, 40 | 43),
        ..Open::default()
    }
}

fn written_marker(ordered: u32, delimiter: u32) -> u8 {
    match (ordered, delimiter) {
        (0, 1) => b'*',
        (0, 2) => b'+',
        (0, _) => b'-',
        (_, 4) => b')',
        _ => b'.',
    }
}

fn holds_line_ending(text: &[u8]) -> bool {
    text.iter().any(|&byte| byte == b'\r' || byte == b'\n')
}
