//! Whole checks and settings: sheets with their texts, reports and marks, what
//! both functions answer, and what report and marks hold behind the calls.
//!
//! Every rule occurs, every stop, and every refusal of a small sheet: long
//! sheets (2) and long texts (3) are in `limits`.

mod pages;

use std::collections::{BTreeMap, BTreeSet};

use cases::{
    damage,
    exhaustive::{beginnings, nothing, Spelling},
    mend, random, templates, Numbers, Sheet,
};
use oracle::{Run, RECORD_WORDS};

use crate::{
    inlines::{self, entries},
    sample::{even, none_twice, shuffled, Sampled, MOST_MENDED},
    sheets,
};

/// No case has more records, text bytes, report words or marks: the program
/// that replays the cases has room for them.
pub const MOST_RECORDS: usize = 64;
pub const MOST_TEXT: usize = 256;
pub const MOST_REPORT: usize = 512;
pub const MOST_MARKS: usize = 72;

/// About how many bytes the stored cases take.
pub const MOST_BYTES: usize = 1_000_000;

/// How many bytes of a stored case stand before its words: six counts and two
/// answers.
pub const HEAD: usize = 28;

/// The group of the cases that a refusal of a check gives is so much and its
/// number; and that of the machine's answer: its number, and so much.
const CHECK_REFUSED: u32 = 100;
const SETTING: u32 = 200;

/// A sheet, its text; the length of the report, the check's answer, and the
/// list that the report holds behind the call: nothing where the sheet is
/// refused; the length of the marks, the machine's answer, and the marks that
/// it writes, which are the first: nothing where it refuses.
#[derive(Clone, PartialEq, Eq, Hash, Debug)]
pub struct Case {
    pub words: Vec<u32>,
    pub text: Vec<u8>,
    pub report_words: usize,
    pub answer: u64,
    pub list: Vec<u32>,
    pub marks_words: usize,
    pub setting: u64,
    pub marks: Vec<u32>,
}

/// How long the report is, seen from the list that it is for; or the marks,
/// seen from the records.
#[derive(Clone, Copy, Debug)]
enum Room {
    /// With so many words more.
    More(usize),
    /// With so many words less, or none.
    Less(usize),
}

impl Room {
    /// So many words for what needs `full`.
    fn words(self, full: usize) -> usize {
        match self {
            Self::More(words) => full + words,
            Self::Less(words) => full.saturating_sub(words),
        }
    }
}

impl Case {
    /// None where the case is too large.
    fn new((words, text): Sheet, report: Room, marks: Room) -> Option<Self> {
        let (number, record) = oracle::refusal(&words, &text);
        let list = match number {
            0 => oracle::list(&words, &text),
            _ => Vec::new(),
        };
        let report_words = report.words(list.len());
        let (number, low, list) = match number {
            0 if list.len() <= report_words => (0, entries(&list).count(), list),
            0 => (11, 0, Vec::new()),
            _ => (number, record, list),
        };
        let marks_words = marks.words(words.len() / RECORD_WORDS);
        let (setting, Run { marks, .. }) = oracle::set(&words, &text, marks_words);
        let fits = words.len() <= MOST_RECORDS * RECORD_WORDS
            && text.len() <= MOST_TEXT
            && report_words <= MOST_REPORT
            && marks_words <= MOST_MARKS;
        fits.then_some(Self {
            words,
            text,
            report_words,
            answer: u64::from(number) << 32 | low as u64,
            list,
            marks_words,
            setting,
            marks,
        })
    }

    /// The number of the check's answer.
    fn number(&self) -> u32 {
        (self.answer >> 32) as u32
    }

    /// The number of the machine's answer.
    fn set_number(&self) -> u32 {
        (self.setting >> 32) as u32
    }

    /// The rules of its entries, in their order.
    fn rules(&self) -> impl Iterator<Item = u32> + '_ {
        entries(&self.list).map(|entry| entry[0])
    }
}

impl Sampled for Case {
    fn size(&self) -> usize {
        let words = self.words.len() + self.list.len() + self.marks.len();
        HEAD + 4 * words + self.text.len()
    }

    fn groups(&self) -> BTreeSet<u32> {
        let mut groups: BTreeSet<u32> = match self.number() {
            0 if self.list.is_empty() => BTreeSet::from([0]),
            0 => self.rules().collect(),
            number => BTreeSet::from([CHECK_REFUSED + number]),
        };
        groups.insert(SETTING + self.set_number());
        groups
    }
}

/// How many entries there are of each rule.
pub fn count(cases: &[Case]) -> BTreeMap<u32, usize> {
    let mut counts = BTreeMap::new();
    for rule in cases.iter().flat_map(Case::rules) {
        *counts.entry(rule).or_default() += 1;
    }
    counts
}

/// A room: exactly full, longer, one word short, or shorter.
fn room(numbers: &mut Numbers) -> Room {
    match numbers.below(8) {
        0..=2 => Room::More(0),
        3 | 4 => Room::More(1 + numbers.index(5)),
        5 => Room::Less(1),
        6 => Room::Less(1 + numbers.index(30)),
        _ => Room::Less(MOST_REPORT),
    }
}

/// A case for each sheet that is not too large.
fn with_rooms(seed: u64, sheets: impl IntoIterator<Item = Sheet>) -> Vec<Case> {
    let mut numbers = Numbers::new(seed);
    let case = |sheet| Case::new(sheet, room(&mut numbers), room(&mut numbers));
    sheets.into_iter().filter_map(case).collect()
}

/// One in eleven of the sheets of up to three records, and of up to two
/// behind each beginning.
fn small() -> Vec<Case> {
    let mut spelling = Spelling::new(&templates::narrow());
    let mut sheets = Vec::new();
    let mut seen = 0;
    let mut see = |words: &[u32], text: &[u8]| {
        let (number, _) = oracle::refusal(words, text);
        seen += 1;
        if seen % 11 == 0 {
            sheets.push(own_text(words, text));
        }
        matches!(number, 0 | 10)
    };
    spelling.sheets(&nothing(), 3, &mut see);
    for beginning in beginnings() {
        spelling.sheets(&beginning, 2, &mut see);
    }
    with_rooms(1, sheets)
}

/// The sheet with a text of the parts that its records name.
fn own_text(words: &[u32], text: &[u8]) -> Sheet {
    let (mut words, mut own) = (words.to_vec(), Vec::new());
    for record in words.chunks_mut(RECORD_WORDS) {
        for field in [8, 10] {
            let [start, length] = [field, field + 1].map(|field| record[field] as usize);
            if length > 0 {
                record[field] = own.len() as u32;
                own.extend(&text[start..start + length]);
            }
        }
    }
    (words, own)
}

/// Random trees, most of them small, and some deep.
fn trees() -> Vec<Case> {
    let tree = |seed: u64| match seed % 40 {
        0 => random::deep(seed, 8),
        1 => random::tree(seed, 24),
        _ => random::tree(seed, 4 + (seed % 6) as usize),
    };
    with_rooms(2, (0..6000).map(tree))
}

/// Random trees with each stop of the machine mended in turn, up to the end.
fn mended() -> Vec<Case> {
    let mut sheets = Vec::new();
    for seed in 0..2000 {
        let mut numbers = Numbers::new(!seed);
        let mut sheet = random::tree(seed, 4 + (seed % 9) as usize);
        for _ in 0..MOST_MENDED {
            let Some(stop) = Run::of(&sheet.0, &sheet.1).stop else {
                break;
            };
            sheet = mend::mended(&mut numbers, sheet, stop.number, stop.record);
            sheets.push(sheet.clone());
        }
    }
    with_rooms(6, sheets)
}

/// Random trees with something done to them.
fn damaged() -> Vec<Case> {
    let tree = |seed: u64| {
        let sheet = random::tree(seed, 2 + (seed % 7) as usize);
        damage::damaged(&mut Numbers::new(!seed), sheet)
    };
    with_rooms(3, (0..4000).map(tree))
}

/// The stored cases, none twice: document 01's cases and traps and the faults
/// of each rule, the deepest trees, and even samples of the others.
pub fn cases() -> Vec<Case> {
    let size = |cases: &[Case]| cases.iter().map(Case::size).sum::<usize>();
    let mut cases = pages::all();
    let left = MOST_BYTES - size(&cases);
    let paragraphs = inlines::cases()
        .into_iter()
        .map(|case| (case.words, case.text));
    let pool = [
        with_rooms(4, paragraphs),
        with_rooms(5, sheets::all()),
        small(),
        damaged(),
        trees(),
        mended(),
    ];
    let pool = shuffled(pool.concat());
    for (numbers, part) in [(1..=10, 20), (11..=11, 10), (0..=0, 70)] {
        let wanted = |case: &&Case| numbers.contains(&case.number());
        let pool = pool.iter().filter(wanted).cloned().collect();
        cases.extend(even(pool, left / 100 * part));
    }
    none_twice(cases)
}

#[cfg(test)]
mod tests {
    use super::*;
    use oracle::REFUSED;
    use std::sync::LazyLock;

    /// The stored cases, made once for all tests.
    static CASES: LazyLock<Vec<Case>> = LazyLock::new(cases);

    #[test]
    fn many_and_bounded() {
        let cases = &*CASES;
        assert!(cases.len() >= 2000, "{}", cases.len());
        assert!(cases.iter().map(Case::size).sum::<usize>() <= MOST_BYTES);
        for case in cases {
            assert!(case.words.len() <= MOST_RECORDS * RECORD_WORDS);
            assert!(case.text.len() <= MOST_TEXT && case.report_words <= MOST_REPORT);
            assert!(case.list.len() <= case.report_words);
            assert!(case.marks_words <= MOST_MARKS && case.marks.len() <= case.marks_words);
        }
    }

    #[test]
    fn every_rule_and_refusal_occurs() {
        let rules = count(&CASES);
        assert!(rules.keys().copied().eq(1..=56), "{rules:?}");
        assert!(rules.values().all(|&count| count >= 20), "{rules:?}");
        let mut numbers = [0; 12];
        for case in &*CASES {
            numbers[case.number() as usize] += 1;
        }
        for (number, &count) in numbers.iter().enumerate() {
            let small = number != 2 && number != 3;
            assert_eq!(count >= 40, small, "{numbers:?}");
        }
    }

    #[test]
    fn every_stop_and_refusal_of_the_machine_occurs() {
        let mut counts = BTreeMap::new();
        for case in &*CASES {
            *counts.entry(case.set_number()).or_insert(0) += 1;
        }
        let refusals = [1, 4, 5, 6, 7, 8, 9, 10, 12].map(|number| REFUSED + number);
        assert!(counts.keys().copied().eq((0..=14).chain(refusals)));
        assert!(counts.values().all(|&count| count >= 20), "{counts:?}");
        // Marks that are written: of headings, cells and items.
        let marks = CASES.iter().flat_map(|case| &case.marks);
        assert!(marks.clone().filter(|&&mark| mark > 0).count() >= 300);
        // Counted on from 999,999,999 over an item whose own number is 3.
        assert!(marks.clone().any(|&mark| mark == 1_000_000_002));
    }

    #[test]
    fn every_kind_and_level_occurs() {
        let accepted = CASES.iter().filter(|case| case.number() == 0);
        let records = accepted.flat_map(|case| case.words.chunks(RECORD_WORDS));
        let (kinds, levels): (BTreeSet<u32>, BTreeSet<u32>) =
            records.map(|record| (record[0], record[1])).unzip();
        assert!(kinds.into_iter().eq((1..=17).chain(20..=24).chain(31..=53)));
        assert!(levels.into_iter().eq(1..=64));
    }

    /// Reports exactly full, longer and one word short are each common.
    #[test]
    fn every_room_occurs() {
        let mut rooms = [0; 4];
        for case in &*CASES {
            let room = match case.number() {
                0 if case.list.is_empty() => continue,
                0 if case.list.len() == case.report_words => 0,
                0 => 1,
                11 => {
                    let list = oracle::list(&case.words, &case.text);
                    assert!(list.len() > case.report_words);
                    2 + usize::from(list.len() > case.report_words + 1)
                }
                _ => continue,
            };
            rooms[room] += 1;
        }
        assert!(rooms.iter().all(|&count| count >= 60), "{rooms:?}");
    }
}
