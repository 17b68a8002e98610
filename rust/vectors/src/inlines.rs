//! Paragraphs of inlines, and what the inline walk reports for each.
//!
//! A case is a sheet of one paragraph. What is expected is the reference's
//! list for it, without what the block walk alone reports (rule 2), which is
//! what `validate_inlines` gives for the paragraph's children at the path 0.

mod exhaustive;
mod random;
mod traps;

use std::collections::{BTreeMap, BTreeSet};

use cases::Sheet;
use oracle::RECORD_WORDS;

use crate::sample::{by_turns, even, none_twice, shuffled, Sampled};

/// The rules of the inline walk.
pub const RULES: [u32; 23] = [
    25, 30, 31, 32, 33, 34, 35, 36, 37, 38, 39, 40, 41, 42, 43, 44, 45, 46, 47, 48, 54, 55, 56,
];

/// No case has more records, and no report more words than so many records:
/// the program that replays the cases has room for them.
const MOST_RECORDS: usize = 66;

/// About how many bytes the stored cases take.
const MOST_BYTES: usize = 250_000;

/// How many bytes of a stored case stand before its words: three counts.
const HEAD: usize = 6;

/// A sheet of one paragraph, its text, and the report of the inline walk.
#[derive(Clone, PartialEq, Eq, Hash, Debug)]
pub struct Case {
    pub words: Vec<u32>,
    pub text: Vec<u8>,
    pub report: Vec<u32>,
}

impl Case {
    /// # Panics
    ///
    /// On a sheet that is refused, or too long.
    fn new((words, text): Sheet) -> Self {
        assert_eq!(oracle::refusal(&words, &text), (0, 0), "{words:?}");
        assert!(words.len() <= MOST_RECORDS * RECORD_WORDS);
        let list = oracle::list(&words, &text);
        let walked = entries(&list).filter(|entry| RULES.contains(&entry[0]));
        let report = walked.flatten().copied().collect::<Vec<u32>>();
        assert!(report.len() <= MOST_RECORDS * RECORD_WORDS);
        Self {
            words,
            text,
            report,
        }
    }

    /// The rules of its entries, in their order.
    pub fn rules(&self) -> impl Iterator<Item = u32> + '_ {
        entries(&self.report).map(|entry| entry[0])
    }
}

impl Sampled for Case {
    fn size(&self) -> usize {
        HEAD + 4 * self.words.len() + self.text.len() + 4 * self.report.len()
    }

    /// The rules that it reports, each once; 0 where it reports none.
    fn groups(&self) -> BTreeSet<u32> {
        let rules: BTreeSet<u32> = self.rules().collect();
        if rules.is_empty() {
            return BTreeSet::from([0]);
        }
        rules
    }
}

/// The entries of a list of report words: the fifth word is the path's length.
pub fn entries(list: &[u32]) -> impl Iterator<Item = &[u32]> {
    let mut rest = list;
    std::iter::from_fn(move || {
        let length = 5 + *rest.get(4)? as usize;
        let (entry, after) = rest.split_at(length);
        rest = after;
        Some(entry)
    })
}

/// How many entries there are of each rule.
pub fn count<'a>(cases: impl IntoIterator<Item = &'a Case>) -> BTreeMap<u32, usize> {
    let mut counts = BTreeMap::new();
    for rule in cases.into_iter().flat_map(Case::rules) {
        *counts.entry(rule).or_default() += 1;
    }
    counts
}

/// The stored cases, none twice: all traps, a deep tree and a long one, and
/// even samples of the small sheets and of the random ones.
pub fn cases() -> Vec<Case> {
    let size = |cases: &[Case]| cases.iter().map(Case::size).sum::<usize>();
    let mut cases = traps::all();
    cases.push(random::deep(0));
    cases.push(random::wide(0, MOST_RECORDS - 1));
    let small = exhaustive::all().into_iter().map(shuffled).collect();
    cases.extend(even(by_turns(small), (MOST_BYTES - size(&cases)) / 2));
    cases.extend(even(shuffled(random::all(2000)), MOST_BYTES - size(&cases)));
    none_twice(cases)
}

#[cfg(test)]
mod tests {
    use super::*;
    use std::collections::HashSet;
    use std::sync::LazyLock;

    /// The stored cases, made once for all tests.
    static CASES: LazyLock<Vec<Case>> = LazyLock::new(cases);

    /// How few entries of a rule, or cases without an entry, are too few.
    const MANY: usize = 30;

    fn is_reported_throughout(cases: &[Case], many: usize) {
        let counts = count(cases);
        assert_eq!(counts.keys().copied().collect::<Vec<_>>(), RULES);
        assert!(counts.values().all(|&count| count >= many), "{counts:?}");
        let silent = cases.iter().filter(|case| case.report.is_empty());
        assert!(silent.count() >= many);
    }

    #[test]
    fn every_rule_occurs() {
        let cases = &*CASES;
        is_reported_throughout(cases, MANY);
        assert!(cases.iter().map(Case::size).sum::<usize>() <= MOST_BYTES);
        let held: HashSet<_> = cases.iter().map(|case| (&case.words, &case.text)).collect();
        assert_eq!(held.len(), cases.len());
    }

    /// Every kind that may stand in a paragraph is among the stored records,
    /// and every level.
    #[test]
    fn every_kind_and_level_occurs() {
        let records = || {
            CASES
                .iter()
                .flat_map(|case| case.words.chunks(RECORD_WORDS))
        };
        let kinds: BTreeSet<u32> = records().map(|record| record[0]).collect();
        assert!(kinds.into_iter().eq([1, 24].into_iter().chain(31..=53)));
        let levels: BTreeSet<u32> = records().map(|record| record[1]).collect();
        assert!(levels.into_iter().eq(1..=64));
    }

    /// The small sheets are tens of thousands, and the rules occur there and
    /// among the random ones and the traps.
    #[test]
    fn every_rule_occurs_in_each_part() {
        let small = exhaustive::all();
        let sizes: Vec<usize> = small.iter().map(Vec::len).collect();
        assert_eq!(
            sizes,
            [52, 2704, 1098, 21_952, 8652, 8652, 8653, 3399],
            "by shape"
        );
        is_reported_throughout(&small.concat(), MANY);
        is_reported_throughout(&random::all(2000), MANY);
        is_reported_throughout(&traps::all(), 2);
    }

    /// Rule 2 alone is left out, and every path is the paragraph's.
    #[test]
    fn reports_are_of_the_walk() {
        for case in &*CASES {
            let list = oracle::list(&case.words, &case.text);
            let before: Vec<u32> = list[..list.len() - case.report.len()].to_vec();
            assert_eq!([before.clone(), case.report.clone()].concat(), list);
            assert!(before.is_empty() || before.len() == 6 && before[0] == 2);
            for entry in entries(&case.report) {
                assert_eq!(entry[4..], [1, 0]);
            }
        }
    }

    #[test]
    fn samples_are_even() {
        let pool = random::all(500);
        let sample = even(pool.clone(), 20_000);
        assert!(sample.iter().map(Case::size).sum::<usize>() <= 20_000);
        assert_eq!(even(pool, usize::MAX).len(), 500);
        let mut counts: BTreeMap<u32, usize> = BTreeMap::new();
        for rule in sample.iter().flat_map(Sampled::groups) {
            *counts.entry(rule).or_default() += 1;
        }
        assert_eq!(counts.len(), RULES.len() + 1);
        assert!(counts.values().all(|&count| count >= 2), "{counts:?}");
    }
}
