//! Sheets that are lent as words and text.

use crate::{check, check_to_vec, set, Entries, Kind, Paths, Refusal, Report, Setting};

/// How many words a record has.
pub const RECORD_WORDS: usize = 12;

/// A sheet and its text as a caller has them: words and bytes that are only
/// lent. What [`Sheet`](crate::Sheet) does, it does with this.
///
/// The words may be any. What a check would refuse is no sheet, and then
/// [`check`](Self::check) and [`set`](Self::set) say so; the others find what
/// they can, or None, and never panic.
///
/// ```
/// use reedsander::{Refusal, Rule, SheetRef, Stop};
///
/// // A quote with a heading of depth 7.
/// let words = [
///     4, 1, 0, 0, 0, 0, 0, 0, 0, 0, 0, 0, //
///     2, 2, 0, 0, 0, 7, 0, 0, 0, 0, 0, 0,
/// ];
/// let sheet = SheetRef::new(&words, b"");
///
/// let report = sheet.check()?;
/// let entry = report.iter().next().unwrap();
/// assert_eq!((entry.rule, entry.name()), (Rule::HEADING_DEPTH, "heading depth"));
/// assert_eq!(sheet.record_at(entry.path), Some(1));
///
/// let (setting, _) = sheet.set()?;
/// let (stop, record) = setting.stop().unwrap();
/// assert_eq!((stop, record), (Stop::HeadingDepth, 1));
/// assert_eq!(sheet.block_path(record).as_deref(), Some(entry.path));
/// # Ok::<(), Refusal>(())
/// ```
#[derive(Clone, Copy, PartialEq, Eq, Hash, Debug, Default)]
pub struct SheetRef<'a> {
    words: &'a [u32],
    text: &'a [u8],
}

impl<'a> SheetRef<'a> {
    /// The sheet of these words, with this text.
    #[must_use]
    pub const fn new(words: &'a [u32], text: &'a [u8]) -> Self {
        Self { words, text }
    }

    /// The words of the records.
    #[must_use]
    pub const fn words(self) -> &'a [u32] {
        self.words
    }

    /// The text, of which the records name parts.
    #[must_use]
    pub const fn text(self) -> &'a [u8] {
        self.text
    }

    /// How many whole records the words are.
    #[must_use]
    pub const fn records(self) -> usize {
        self.words.len() / RECORD_WORDS
    }

    /// What a record is. None where there is no such record, or its kind is
    /// not listed.
    #[must_use]
    pub fn kind(self, record: usize) -> Option<Kind> {
        let mut records = self.words.chunks_exact(RECORD_WORDS);
        Kind::from_raw(records.nth(record)?[0])
    }

    /// Checks it; see [`check_to_vec`].
    ///
    /// # Errors
    ///
    /// Where it is refused; never [`Refusal::ShortReport`].
    pub fn check(self) -> Result<Report, Refusal> {
        check_to_vec(self.words, self.text)
    }

    /// Checks it into a report that the caller has; see
    /// [`check`](crate::check()).
    ///
    /// # Errors
    ///
    /// Where it is refused, or the report has too few words.
    pub fn check_into(self, report: &mut [u32]) -> Result<Entries<'_>, Refusal> {
        check(self.words, self.text, report)
    }

    /// Sets it, and gives a mark for each record; those of records that were
    /// not opened are 0.
    ///
    /// # Errors
    ///
    /// Where it is refused; never [`Refusal::ShortMarks`].
    pub fn set(self) -> Result<(Setting, Vec<u32>), Refusal> {
        let mut marks = vec![0; self.records()];
        let setting = self.set_into(&mut marks)?;
        Ok((setting, marks))
    }

    /// Sets it with marks that the caller has; see [`set`](crate::set()).
    ///
    /// # Errors
    ///
    /// Where it is refused, or there are fewer marks than records.
    pub fn set_into(self, marks: &mut [u32]) -> Result<Setting, Refusal> {
        set(self.words, self.text, marks)
    }

    /// The record that an entry's path leads to, counted from 0: a block, an
    /// item, a row or a cell. None where the path leads nowhere.
    ///
    /// It reads the sheet from its first record on. For more than a few paths
    /// of one sheet, [`paths`](Self::paths) is much faster.
    #[must_use]
    pub fn record_at(self, path: &[u32]) -> Option<usize> {
        // How many indices lead to the record that is open, and how many of
        // its children are passed.
        let mut led = 0;
        let mut passed = 0;
        for (record, (kind, level)) in self.heads().enumerate() {
            if level <= led {
                return None;
            }
            if level > led + 1 || !kind.is_some_and(Kind::is_counted) {
                continue;
            }
            if passed < *path.get(led)? {
                passed += 1;
                continue;
            }
            led += 1;
            passed = 0;
            if led == path.len() {
                return Some(record);
            }
        }
        None
    }

    /// The path of the block that a record is, or else stands in: where the
    /// setting machine stops at the record, it stops in that block. None where
    /// there is no such record, or it stands in no block.
    #[must_use]
    pub fn block_path(self, record: usize) -> Option<Vec<u32>> {
        self.paths().block_path(record)
    }

    /// Its records by their paths, for many entries.
    #[must_use]
    pub fn paths(self) -> Paths {
        Paths::new(self)
    }

    /// Kind and level of each record, up to the first whose level is 0 or more
    /// than one over that of the record before.
    pub(crate) fn heads(self) -> impl Iterator<Item = (Option<Kind>, usize)> + 'a {
        let records = self.words.chunks_exact(RECORD_WORDS);
        records.scan(0, |before, record| {
            let level = record[1] as usize;
            let is_good = (1..=*before + 1).contains(&level);
            *before = level;
            is_good.then_some((Kind::from_raw(record[0]), level))
        })
    }
}
