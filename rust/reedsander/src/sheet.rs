//! Sheets made from trees.

use std::collections::HashMap;

use crate::{
    tree::{Block, Record},
    Entries, Paths, Refusal, Report, Setting, SheetRef,
};

/// A sheet and its text.
#[derive(Clone, PartialEq, Eq, Hash, Debug, Default)]
pub struct Sheet {
    words: Vec<u32>,
    text: Vec<u8>,
}

impl Sheet {
    /// The sheet of a tree. Each text of the tree stands once in the text,
    /// however often the tree has it.
    ///
    /// A tree that is too large or too deep is made into a sheet as well,
    /// entire, which a check then refuses.
    #[must_use]
    pub fn new(blocks: &[Block<'_>]) -> Self {
        let mut maker = Maker::default();
        for block in blocks {
            // Where what stands under each open record ends.
            let mut ends = Vec::new();
            for (at, record) in block.0.records().enumerate() {
                while ends.last() == Some(&at) {
                    ends.pop();
                }
                maker.add(ends.len() + 1, record);
                ends.push(at + 1 + record.under);
            }
        }
        maker.sheet
    }

    /// The sheet as words and text that are lent.
    #[must_use]
    pub fn view(&self) -> SheetRef<'_> {
        SheetRef::new(&self.words, &self.text)
    }

    /// The words of the records.
    #[must_use]
    pub fn words(&self) -> &[u32] {
        &self.words
    }

    /// The texts, one behind another.
    #[must_use]
    pub fn text(&self) -> &[u8] {
        &self.text
    }

    /// How many records it has.
    #[must_use]
    pub fn records(&self) -> usize {
        self.view().records()
    }

    /// The record that an entry's path leads to; see [`SheetRef::record_at`].
    #[must_use]
    pub fn record_at(&self, path: &[u32]) -> Option<usize> {
        self.view().record_at(path)
    }

    /// The path of the block that a record is, or else stands in; see
    /// [`SheetRef::block_path`].
    #[must_use]
    pub fn block_path(&self, record: usize) -> Option<Vec<u32>> {
        self.view().block_path(record)
    }

    /// Its records by their paths, for many entries.
    #[must_use]
    pub fn paths(&self) -> Paths {
        self.view().paths()
    }

    /// Checks it; see [`check_to_vec`](crate::check_to_vec).
    ///
    /// # Errors
    ///
    /// Where it is refused; never [`Refusal::ShortReport`].
    pub fn check(&self) -> Result<Report, Refusal> {
        self.view().check()
    }

    /// Checks it into a report that the caller has; see
    /// [`check`](crate::check()).
    ///
    /// # Errors
    ///
    /// Where it is refused, or the report has too few words.
    pub fn check_into<'r>(&self, report: &'r mut [u32]) -> Result<Entries<'r>, Refusal> {
        self.view().check_into(report)
    }

    /// Sets it, and gives a mark for each record; those of records that were
    /// not opened are 0.
    ///
    /// # Errors
    ///
    /// Where it is refused; never [`Refusal::ShortMarks`].
    pub fn set(&self) -> Result<(Setting, Vec<u32>), Refusal> {
        self.view().set()
    }

    /// Sets it with marks that the caller has; see [`set`](crate::set()).
    ///
    /// # Errors
    ///
    /// Where it is refused, or there are fewer marks than records.
    pub fn set_into(&self, marks: &mut [u32]) -> Result<Setting, Refusal> {
        self.view().set_into(marks)
    }
}

impl<'a> From<&'a Sheet> for SheetRef<'a> {
    fn from(sheet: &'a Sheet) -> Self {
        sheet.view()
    }
}

#[derive(Default)]
pub(crate) struct Maker<'t> {
    pub(crate) sheet: Sheet,
    /// Where each text stands.
    starts: HashMap<&'t str, u32>,
}

impl<'t> Maker<'t> {
    /// Adds a record.
    pub(crate) fn add(&mut self, level: usize, record: &Record<'t>) {
        let [flag, start, end] = match record.span {
            Some((start, end)) => [1, start, end],
            None => [0; 3],
        };
        let head = [record.kind.number(), word(level), flag, start, end];
        self.sheet
            .words
            .extend(head.into_iter().chain(record.values));
        for text in record.texts {
            let part = text.map_or([0; 2], |text| self.part(text));
            self.sheet.words.extend(part);
        }
    }

    /// Start and length of a text.
    fn part(&mut self, text: &'t str) -> [u32; 2] {
        if text.is_empty() {
            return [0; 2];
        }
        let pool = &mut self.sheet.text;
        let start = *self.starts.entry(text).or_insert_with(|| {
            let start = word(pool.len());
            pool.extend(text.as_bytes());
            start
        });
        [start, word(text.len())]
    }
}

/// A size as a word. One that no word holds is of a sheet or a text that is
/// long, which is refused before a record is looked at.
fn word(size: usize) -> u32 {
    u32::try_from(size).unwrap_or(u32::MAX)
}
