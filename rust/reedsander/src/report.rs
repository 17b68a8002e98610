//! The entries of a report.

use std::{fmt, iter::FusedIterator};

use crate::Rule;

/// One finding of the checker.
#[derive(Clone, Copy, PartialEq, Eq, Hash, Debug)]
#[non_exhaustive]
pub struct Entry<'r> {
    /// The rule that is not kept.
    pub rule: Rule,
    /// Start and end of the span of the record that is reported, as the sheet
    /// gives it; None where it has none, and for rule 55.
    pub span: Option<(u32, u32)>,
    /// One index, counted from 0, for each block, item, row and cell from the
    /// sheet down to where the entry belongs.
    pub path: &'r [u32],
}

impl Entry<'_> {
    /// What its rule is called; see [`Rule::name`].
    #[must_use]
    pub const fn name(&self) -> &'static str {
        self.rule.name()
    }
}

/// For people: `rule 19 (table: row width) at 3/1, bytes 40 to 80`.
impl fmt::Display for Entry<'_> {
    fn fmt(&self, formatter: &mut fmt::Formatter<'_>) -> fmt::Result {
        write!(formatter, "{} at ", self.rule)?;
        for (at, index) in self.path.iter().enumerate() {
            let bar = if at == 0 { "" } else { "/" };
            write!(formatter, "{bar}{index}")?;
        }
        match self.span {
            Some((start, end)) => write!(formatter, ", bytes {start} to {end}"),
            None => Ok(()),
        }
    }
}

/// The entries of a report, in the order of the walk.
#[derive(Clone, PartialEq, Eq, Debug)]
#[must_use]
pub struct Entries<'r> {
    /// The words of the entries that are still to come.
    words: &'r [u32],
    left: usize,
}

impl<'r> Entries<'r> {
    /// The first `count` entries of `report`. None where they are not all
    /// inside the report.
    pub(crate) fn new(report: &'r [u32], count: u32) -> Option<Self> {
        let mut rest = report;
        for _ in 0..count {
            (_, rest) = split(rest)?;
        }
        Some(Self {
            words: &report[..report.len() - rest.len()],
            left: count as usize,
        })
    }

    /// The words of the entries that are still to come, as they stand in the
    /// report.
    #[must_use]
    pub const fn words(&self) -> &'r [u32] {
        self.words
    }

    /// Whether no entry is to come.
    #[must_use]
    pub const fn is_empty(&self) -> bool {
        self.left == 0
    }
}

/// The first entry of `words` and the words behind it; None where it is not
/// whole.
fn split(words: &[u32]) -> Option<(Entry<'_>, &[u32])> {
    let &[rule, flag, start, end, length, ref after @ ..] = words else {
        return None;
    };
    let (path, after) = after.split_at_checked(length as usize)?;
    let span = (flag == 1).then_some((start, end));
    let rule = Rule::of_entry(rule);
    Some((Entry { rule, span, path }, after))
}

impl<'r> Iterator for Entries<'r> {
    type Item = Entry<'r>;

    fn next(&mut self) -> Option<Entry<'r>> {
        let (entry, after) = split(self.words)?;
        self.words = after;
        self.left -= 1;
        Some(entry)
    }

    fn size_hint(&self) -> (usize, Option<usize>) {
        (self.left, Some(self.left))
    }
}

impl ExactSizeIterator for Entries<'_> {}
impl FusedIterator for Entries<'_> {}

/// A report that owns its words: all of the list, and no word more.
#[derive(Clone, PartialEq, Eq, Hash, Debug, Default)]
#[must_use]
pub struct Report {
    words: Vec<u32>,
    count: usize,
}

impl Report {
    /// The first `count` entries of `words`. None where they are not all in
    /// them.
    pub(crate) fn new(mut words: Vec<u32>, count: u32) -> Option<Self> {
        let length = Entries::new(&words, count)?.words().len();
        words.truncate(length);
        let count = count as usize;
        Some(Self { words, count })
    }

    /// The entries, in the order of the walk.
    pub fn iter(&self) -> Entries<'_> {
        Entries {
            words: &self.words,
            left: self.count,
        }
    }

    /// The entries, as [`iter`](Self::iter) gives them.
    pub fn entries(&self) -> Entries<'_> {
        self.iter()
    }

    /// How many entries there are.
    #[must_use]
    pub const fn len(&self) -> usize {
        self.count
    }

    /// Whether nothing was found.
    #[must_use]
    pub const fn is_empty(&self) -> bool {
        self.count == 0
    }

    /// The words of the list.
    #[must_use]
    pub fn words(&self) -> &[u32] {
        &self.words
    }
}

/// For people: a line for each entry, with the rule's name and the path.
impl fmt::Display for Report {
    fn fmt(&self, formatter: &mut fmt::Formatter<'_>) -> fmt::Result {
        for entry in self {
            writeln!(formatter, "{entry}")?;
        }
        Ok(())
    }
}

impl<'r> IntoIterator for &'r Report {
    type Item = Entry<'r>;
    type IntoIter = Entries<'r>;

    fn into_iter(self) -> Entries<'r> {
        self.iter()
    }
}

#[cfg(test)]
mod tests {
    use super::*;

    const WORDS: [u32; 15] = [10, 0, 0, 0, 1, 7, 19, 1, 4, 9, 2, 3, 1, 99, 99];

    #[test]
    fn two_entries() {
        let mut entries = Entries::new(&WORDS, 2).unwrap();
        assert_eq!((entries.len(), entries.words()), (2, &WORDS[..13]));
        let heading = entries.next().unwrap();
        assert_eq!((heading.rule, heading.span), (Rule::HEADING_DEPTH, None));
        assert_eq!(heading.path, [7]);
        assert_eq!(heading.to_string(), "rule 10 (heading depth) at 7");
        assert_eq!((entries.len(), entries.words()), (1, &WORDS[6..13]));
        let row = entries.next().unwrap();
        assert_eq!((row.rule, row.span), (Rule::ROW_WIDTH, Some((4, 9))));
        assert_eq!(row.path, [3, 1]);
        assert_eq!(
            row.to_string(),
            "rule 19 (table: row width) at 3/1, bytes 4 to 9"
        );
        assert!(entries.is_empty());
        assert_eq!((entries.next(), entries.next()), (None, None));
    }

    #[test]
    fn none() {
        assert!(Entries::new(&[], 0).unwrap().is_empty());
        assert_eq!(Entries::new(&WORDS, 0).unwrap().next(), None);
        assert_eq!(Report::new(WORDS.to_vec(), 0), Some(Report::default()));
    }

    #[test]
    fn owned() {
        let report = Report::new(WORDS.to_vec(), 2).unwrap();
        assert_eq!((report.len(), report.words()), (2, &WORDS[..13]));
        assert!(!report.is_empty());
        let lines =
            "rule 10 (heading depth) at 7\nrule 19 (table: row width) at 3/1, bytes 4 to 9\n";
        assert_eq!(report.to_string(), lines);
        let rules: Vec<Rule> = report.into_iter().map(|entry| entry.rule).collect();
        assert_eq!(rules, [Rule::HEADING_DEPTH, Rule::ROW_WIDTH]);
        assert_eq!(report.entries(), report.iter());
    }

    /// A rule without a name is given by its number.
    #[test]
    fn of_a_newer_library() {
        let entry = Entries::new(&[99, 0, 0, 0, 1, 4], 1)
            .unwrap()
            .next()
            .unwrap();
        assert_eq!((entry.rule.number(), entry.path), (99, &[4][..]));
        let shown = "rule 99 (a rule without a name here) at 4";
        assert_eq!(entry.to_string(), shown);
    }

    /// A path that is not inside, and a head that is not.
    #[test]
    fn not_whole() {
        assert_eq!(Entries::new(&WORDS, 3), None);
        assert_eq!(Report::new(WORDS.to_vec(), 3), None);
        assert!(split(&WORDS[..5]).is_none());
        assert!(split(&WORDS[..4]).is_none());
        assert!(split(&[1, 0, 0, 0, u32::MAX, 1]).is_none());
        assert!(split(&[1, 0, 0, 0, 0]).is_some());
    }
}
