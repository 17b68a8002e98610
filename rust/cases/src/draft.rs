//! Sheets in the making.

use crate::{
    letters::{self, Letter, Tree},
    plain, Numbers, Sheet, RECORD_WORDS,
};

/// What has been added so far.
#[derive(Clone)]
pub struct Draft {
    words: Vec<u32>,
    text: Vec<u8>,
    /// Chooses spans, and where texts lie.
    numbers: Numbers,
}

/// Bytes of the text that no record names; they are not looked at.
const UNNAMED: [&[u8]; 8] = [b"\xFF", b"\n", b"\xC3", b"`$", b"", b"", b"", b""];

impl Draft {
    /// Nothing yet but a byte or two of text.
    pub fn new(seed: u64) -> Self {
        let mut draft = Self {
            words: Vec::new(),
            text: Vec::new(),
            numbers: Numbers::new(seed),
        };
        draft.add_unnamed();
        draft
    }

    /// One paragraph.
    pub fn paragraph(seed: u64) -> Self {
        let mut draft = Self::new(seed);
        draft.add(1, &letters::paragraph());
        draft
    }

    pub fn records(&self) -> usize {
        self.words.len() / RECORD_WORDS
    }

    /// The kind of the nearest earlier record of a level.
    pub fn last_at(&self, level: u32) -> Option<u32> {
        let mut records = self.words.chunks(RECORD_WORDS).rev();
        let last = records.find(|record| record[1] == level)?;
        Some(last[0])
    }

    pub fn add(&mut self, level: u32, letter: &Letter) {
        let mut record = plain(letter.kind, level);
        if letter.kind != 24 {
            record[2..5].copy_from_slice(&self.span());
        }
        record[5] = letter.a;
        record[6] = letter.b;
        record[7] = letter.c;
        for (field, part) in [(8, &letter.first), (10, &letter.second)] {
            if let Some(part) = part {
                record[field..field + 2].copy_from_slice(&self.part(part.as_bytes()));
            }
        }
        self.words.extend(record);
    }

    /// Adds each tree, the record before what is under it.
    pub fn add_trees(&mut self, level: u32, trees: &[Tree]) {
        for tree in trees {
            self.add(level, &tree.letter);
            self.add_trees(level + 1, &tree.children);
        }
    }

    pub fn done(mut self) -> Sheet {
        self.add_unnamed();
        (self.words, self.text)
    }

    fn add_unnamed(&mut self) {
        let index = self.numbers.below(UNNAMED.len() as u32) as usize;
        self.text.extend(UNNAMED[index]);
    }

    /// The span of the next record: mostly one that no other record has.
    fn span(&mut self) -> [u32; 3] {
        let record = self.records() as u32;
        match self.numbers.below(8) {
            0 => [0; 3],
            1 => [1, 0, 0],
            2 => [1, u32::MAX - record, record],
            _ => {
                let start = record * 100 + self.numbers.below(100);
                [1, start, start + self.numbers.below(100)]
            }
        }
    }

    /// Start and length of a part that is `value`. An empty one starts
    /// anywhere, and another often inside what is there already.
    fn part(&mut self, value: &[u8]) -> [u32; 2] {
        let length = value.len() as u32;
        if value.is_empty() {
            return [self.numbers.below(self.text.len() as u32 + 1), 0];
        }
        let held = self.text.windows(value.len()).position(|at| at == value);
        let fresh = self.numbers.below(4) == 0;
        if let (Some(start), false) = (held, fresh) {
            return [start as u32, length];
        }
        self.text.extend(value);
        [self.text.len() as u32 - length, length]
    }
}
