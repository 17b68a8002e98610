//! The setting machine, read from document 01 and order 2 as plainly as can
//! be: it keeps a stack of the records that are open, and looks back for
//! siblings. It is quadratic.

use alloc::vec::Vec;

use crate::refusal::{
    is_block, is_inline, refusal, word, A, B, C, KIND, LEVEL, RECORD_WORDS, TEXTS,
};

/// The rules that document 01 names beside each stop; those of stop 1 come
/// first.
pub const STOP_RULES: [&[u32]; 14] = [
    &[16, 17, 18, 19],
    &[16, 17, 18, 19],
    &[16, 17, 18, 19],
    &[20, 22, 23],
    &[42],
    &[10],
    &[50],
    &[49],
    &[12],
    &[2, 39],
    &[37],
    &[28],
    &[31, 45],
    &[1],
];

// The kinds that the machine asks for.
const PARAGRAPH: u32 = 1;
const HEADING: u32 = 2;
const LIST: u32 = 6;
const TABLE: u32 = 12;
const FRONTMATTER: u32 = 14;
const LEAF_DIRECTIVE: u32 = 15;
const CONTAINER_DIRECTIVE: u32 = 16;
const BLANK_LINE: u32 = 17;
const ITEM: u32 = 20;
const ROW: u32 = 21;
const CELL: u32 = 22;
const TEXT: u32 = 31;
const EMPHASIS: u32 = 34;
const STRONG: u32 = 35;
const DELETE: u32 = 36;
const MARK: u32 = 37;
const CODE: u32 = 39;
const LINK: u32 = 40;
const AUTOLINK: u32 = 41;
const LINK_REFERENCE: u32 = 43;
const SOFT_BREAK: u32 = 46;
const LINE_BREAK: u32 = 47;
const WIKILINK: u32 = 51;

/// An opening or a closing of a record.
#[derive(Clone, Copy, PartialEq, Eq, Debug)]
pub enum Step {
    Open(usize),
    Close(usize),
}

/// Where the machine stopped.
#[derive(Clone, PartialEq, Eq, Debug)]
pub struct Stop {
    /// Its number, 1 to 14.
    pub number: u32,
    /// "the record being opened or closed"
    pub record: usize,
    /// The path of "the block it stopped in".
    pub path: Vec<u32>,
}

/// What the machine did.
#[derive(Clone, PartialEq, Eq, Debug, Default)]
pub struct Run {
    /// "the list of its openings and closings, in the order they happen"; the
    /// one that stopped is not among them.
    pub steps: Vec<Step>,
    /// The mark of each record that was opened, so of the first ones.
    pub marks: Vec<u32>,
    /// None where the machine came to the end.
    pub stop: Option<Stop>,
}

impl Run {
    /// The machine's run over an accepted sheet.
    pub fn of(sheet: &[u32], text: &[u8]) -> Self {
        let mut machine = Machine {
            sheet,
            text,
            open: Vec::new(),
            run: Self::default(),
        };
        machine.run.stop = machine.all().err();
        machine.run
    }

    /// What a call with the sheet of the run, which has so many records, and
    /// so many marks answers: "12 short marks: fewer marks than records
    /// (setter)"; "end and record count, or stop and the record being opened
    /// or closed."
    pub fn answer(&self, records: usize, marks: usize) -> (u32, usize) {
        match &self.stop {
            _ if marks < records => (REFUSED + 12, 0),
            None => (0, records),
            Some(stop) => (stop.number, stop.record),
        }
    }
}

/// What is added to the number of a refusal in an answer.
pub const REFUSED: u32 = 256;

/// What a call with a sheet, its text and so many marks answers, its number
/// above the lower 32 bits; and the run, which is nothing where the call is
/// refused. 12 comes last of the refusals: "then 11, or 12 for the setter".
pub fn set(sheet: &[u32], text: &[u8], marks: usize) -> (u64, Run) {
    let packed = |(number, low): (u32, usize)| u64::from(number) << 32 | low as u64;
    let (number, record) = refusal(sheet, text);
    if number != 0 {
        return (packed((REFUSED + number, record)), Run::default());
    }
    let run = Run::of(sheet, text);
    let answer = run.answer(sheet.len() / RECORD_WORDS, marks);
    match answer.0 {
        0..REFUSED => (packed(answer), run),
        REFUSED.. => (packed(answer), Run::default()),
    }
}

struct Machine<'s> {
    sheet: &'s [u32],
    text: &'s [u8],
    /// The records that are open, the innermost last.
    open: Vec<usize>,
    run: Run,
}

impl Machine<'_> {
    /// "It opens records in order and closes innermost first: before a record
    /// opens, it closes every open one of that level or deeper; after the
    /// last, all that are open, and then it is at the end. A stop ends the
    /// run."
    fn all(&mut self) -> Result<(), Stop> {
        let records = self.sheet.len() / RECORD_WORDS;
        for record in 0..records {
            self.close(self.level(record), record)?;
            self.open(record)?;
        }
        self.close(1, records)
    }

    /// Closes every open record of a level or deeper. What is under them ends
    /// at `end`.
    fn close(&mut self, level: u32, end: usize) -> Result<(), Stop> {
        while let Some(&record) = self.open.last() {
            if self.level(record) < level {
                break;
            }
            if let Some(number) = self.closing_stop(record, end) {
                return Err(self.stop(number, record));
            }
            self.open.pop();
            self.run.steps.push(Step::Close(record));
        }
        Ok(())
    }

    /// Opens a record. "Each record opened without a stop gets a mark".
    fn open(&mut self, record: usize) -> Result<(), Stop> {
        if let Some(number) = self.opening_stop(record) {
            return Err(self.stop(number, record));
        }
        let mark = self.mark(record);
        self.open.push(record);
        self.run.steps.push(Step::Open(record));
        self.run.marks.push(mark);
        Ok(())
    }

    // The table of stops.

    /// The conditions that speak of a record that is opened, in their order:
    /// "At one opening or closing the lowest stop wins."
    fn opening_stop(&self, record: usize) -> Option<u32> {
        let kind = self.kind(record);
        let [a, b, c] = [A, B, C].map(|field| self.word(record, field));
        let own_number = kind == ITEM && b == 1;
        let conditions = [
            // "cell position (from 0) not below table's A"
            (1, kind == CELL && self.position(record) >= self.columns()),
            // "inline break (so no thematic break) whose nearest open
            // non-inline is a cell, leaf or container directive"
            (4, is_break(kind) && self.is_in_one_line()),
            // "link, autolink, link reference or wikilink under a link or
            // link reference, at any depth"
            (5, is_link(kind) && self.is_in_link()),
            // "heading depth not 1–6"
            (6, kind == HEADING && !(1..=6).contains(&a)),
            // "ordered item's own number over 999,999,999"
            (7, own_number && self.is_in_ordered() && c > 999_999_999),
            // "bullet item with number"
            (8, own_number && !self.is_in_ordered()),
            // "soft or spaces break straight after a sibling break"
            (
                11,
                (kind == SOFT_BREAK || kind == LINE_BREAK && a == 1) && self.is_after_break(record),
            ),
            // "frontmatter whose level exceeds 1"
            (12, kind == FRONTMATTER && self.level(record) > 1),
            // "text or inline code (kinds 31, 39) with CR or LF"
            (
                13,
                matches!(kind, TEXT | CODE) && self.holds_line_ending(record),
            ),
            // "list straight after a sibling list of the same written marker,
            // only blank lines skipped"
            (14, kind == LIST && self.is_after_same_list(record)),
        ];
        lowest(&conditions)
    }

    /// The conditions that speak of a record that is closed. What is under it
    /// ends at `end`.
    fn closing_stop(&self, record: usize, end: usize) -> Option<u32> {
        let kind = self.kind(record);
        let children: Vec<usize> = (record + 1..end)
            .filter(|&later| self.level(later) == self.level(record) + 1)
            .collect();
        let emptied = matches!(kind, PARAGRAPH | EMPHASIS | STRONG | DELETE | MARK);
        let conditions = [
            // "row closed with under A cells"
            (2, kind == ROW && children.len() < self.columns()),
            // "table closed without row, or A = 0"
            (
                3,
                kind == TABLE && (children.is_empty() || self.columns() == 0),
            ),
            // "list closed without item"
            (9, kind == LIST && children.is_empty()),
            // "paragraph, emphasis, strong, delete or mark closed with
            // nothing but empty texts"
            (
                10,
                emptied && children.iter().all(|&child| self.is_empty_text(child)),
            ),
        ];
        lowest(&conditions)
    }

    /// "heading depth; cell's column from 1; [...] 0 otherwise." And order 2:
    /// "The machine's mark for an ordered item becomes the first item's
    /// number, or 1 without one, plus the item's position from 0."
    fn mark(&self, record: usize) -> u32 {
        match self.kind(record) {
            HEADING => self.word(record, A),
            CELL => self.position(record) as u32 + 1,
            ITEM if self.is_in_ordered() => {
                let first = self.siblings_before(record).next().unwrap_or(record);
                let start = match self.word(first, B) {
                    1 => self.word(first, C),
                    _ => 1,
                };
                start + self.position(record) as u32
            }
            _ => 0,
        }
    }

    // What the conditions ask.

    fn word(&self, record: usize, field: usize) -> u32 {
        word(self.sheet, record, field)
    }

    fn kind(&self, record: usize) -> u32 {
        self.word(record, KIND)
    }

    fn level(&self, record: usize) -> u32 {
        self.word(record, LEVEL)
    }

    /// The first text of a record.
    fn first_text(&self, record: usize) -> &[u8] {
        let [start, length] = [TEXTS[0], TEXTS[0] + 1].map(|field| self.word(record, field));
        &self.text[start as usize..][..length as usize]
    }

    /// The earlier records under the same parent, in their order. All that
    /// is open and less deep than the record holds it, so its parent is the
    /// innermost of these.
    fn siblings_before(&self, record: usize) -> impl DoubleEndedIterator<Item = usize> + '_ {
        let level = self.level(record);
        let mut open = self.open.iter().rev();
        let parent = open.find(|&&open| self.level(open) < level);
        (parent.map_or(0, |parent| parent + 1)..record)
            .filter(move |&earlier| self.level(earlier) == level)
    }

    /// How many stand before it under its parent.
    fn position(&self, record: usize) -> usize {
        self.siblings_before(record).count()
    }

    /// The kinds of what is open, the innermost first.
    fn open_kinds(&self) -> impl Iterator<Item = u32> + '_ {
        self.open.iter().rev().map(|&open| self.kind(open))
    }

    /// The innermost open record of a kind that is open.
    fn innermost(&self, kind: u32) -> usize {
        let mut open = self.open.iter().rev().copied();
        let found = open.find(|&open| self.kind(open) == kind);
        found.expect("a sheet that is accepted has it")
    }

    /// The A of the table that is open.
    fn columns(&self) -> usize {
        self.word(self.innermost(TABLE), A) as usize
    }

    /// Whether the list around an item is ordered.
    fn is_in_ordered(&self) -> bool {
        self.word(self.innermost(LIST), A) == 1
    }

    fn is_in_one_line(&self) -> bool {
        let nearest = self.open_kinds().find(|&kind| !is_inline(kind));
        matches!(nearest, Some(CELL | LEAF_DIRECTIVE | CONTAINER_DIRECTIVE))
    }

    fn is_in_link(&self) -> bool {
        self.open_kinds()
            .any(|kind| matches!(kind, LINK | LINK_REFERENCE))
    }

    fn is_after_break(&self, record: usize) -> bool {
        let before = self.siblings_before(record).next_back();
        before.is_some_and(|before| is_break(self.kind(before)))
    }

    fn is_after_same_list(&self, record: usize) -> bool {
        let mut before = self.siblings_before(record).rev();
        let before = before.find(|&before| self.kind(before) != BLANK_LINE);
        before.is_some_and(|before| {
            self.kind(before) == LIST && self.written_marker(before) == self.written_marker(record)
        })
    }

    /// "written marker `*` or `+` for such bullets, `-` for other bullets,
    /// `)` for ordered paren, `.` for other ordered." "list delimiter 0–4 in
    /// source order": dash, asterisk, plus, period, paren.
    fn written_marker(&self, list: usize) -> char {
        match (self.word(list, A), self.word(list, B)) {
            (0, 1) => '*',
            (0, 2) => '+',
            (0, _) => '-',
            (_, 4) => ')',
            _ => '.',
        }
    }

    fn holds_line_ending(&self, record: usize) -> bool {
        let text = self.first_text(record);
        text.contains(&b'\r') || text.contains(&b'\n')
    }

    fn is_empty_text(&self, record: usize) -> bool {
        self.kind(record) == TEXT && self.first_text(record).is_empty()
    }

    // Where it stopped.

    fn stop(&self, number: u32, record: usize) -> Stop {
        Stop {
            number,
            record,
            path: self.path(record),
        }
    }

    /// "The block (kinds 1–17, so no item, row or cell) it stopped in is the
    /// one being opened or closed, else the innermost open one." "A block's
    /// path has one index for each block and item from the sheet down to that
    /// block, itself included: how many blocks or items stand before it under
    /// the same parent."
    fn path(&self, record: usize) -> Vec<u32> {
        let mut around = self.open.clone();
        if around.last() != Some(&record) {
            around.push(record);
        }
        let block = around.iter().rposition(|&open| is_block(self.kind(open)));
        around.truncate(block.map_or(0, |block| block + 1));
        let counted = |record: &usize| is_block(self.kind(*record)) || self.kind(*record) == ITEM;
        let index = |record: usize| self.siblings_before(record).filter(counted).count() as u32;
        around.into_iter().filter(counted).map(index).collect()
    }
}

/// The first number whose condition holds.
fn lowest(conditions: &[(u32, bool)]) -> Option<u32> {
    let mut held = conditions.iter().filter(|(_, holds)| *holds);
    held.next().map(|&(number, _)| number)
}

fn is_break(kind: u32) -> bool {
    matches!(kind, SOFT_BREAK | LINE_BREAK)
}

fn is_link(kind: u32) -> bool {
    matches!(kind, LINK | AUTOLINK | LINK_REFERENCE | WIKILINK)
}

#[cfg(test)]
mod tests {
    use super::*;

    /// A break after a break in a label, where 4 and 11 both hold: a run
    /// never comes there, since it stops at the break before, so the machine
    /// is put there.
    #[test]
    fn lowest_of_two() {
        let record = |kind: u32, level: u32| {
            let mut record = [0; RECORD_WORDS];
            record[..2].copy_from_slice(&[kind, level]);
            record
        };
        let stop = |around: u32| {
            let sheet = [record(around, 1), record(46, 2), record(46, 2)].concat();
            let machine = Machine {
                sheet: &sheet,
                text: b"",
                open: vec![0],
                run: Run::default(),
            };
            machine.opening_stop(2)
        };
        assert_eq!(stop(15), Some(4));
        assert_eq!(stop(1), Some(11));
    }
}
