//! Films, as the listing program reads them, with what it prints.
//!
//! Every rule occurs, every stop, and every refusal that there can be: a film
//! has whole records, at most 512, and at most 16,384 text bytes, so that the
//! check never refuses it by 1, 2 or 3.

use std::collections::{BTreeMap, BTreeSet};

use cases::{damage, films, mend, plain, random, Numbers, Sheet};
use oracle::{Run, RECORD_WORDS};

use crate::sample::{even, none_twice, shuffled, Sampled, MOST_MENDED};

/// No film has more bytes, one more than the largest that is listed: the
/// program that replays them has room for so many.
pub const MOST_INPUT: usize = 84_504;

/// About how many bytes the stored films take.
pub const MOST_BYTES: usize = 1_400_000;

/// How many bytes of a stored film stand before it: two counts.
pub const HEAD: usize = 8;

/// The group of the films that are refused is so much and the number; of those
/// that are listed so much and the stop.
const REFUSED: u32 = 100;
const STOPPED: u32 = 200;

/// A film, and what is printed for it.
#[derive(Clone, PartialEq, Eq, Hash, Debug)]
pub struct Case {
    pub input: Vec<u8>,
    pub output: Vec<u8>,
}

impl Case {
    fn new(input: Vec<u8>) -> Self {
        let output = oracle::listing(&input);
        Self { input, output }
    }

    /// The numbers of each line that is printed.
    fn lines(&self) -> Vec<Vec<u32>> {
        let printed = core::str::from_utf8(&self.output).expect("numbers and spaces");
        let numbers = |line: &str| {
            line.split_whitespace()
                .map(|number| number.parse().unwrap())
                .collect()
        };
        printed.lines().map(numbers).collect()
    }

    /// The rules of the entries, in their order.
    fn rules(&self) -> Vec<u32> {
        let lines = self.lines();
        let entries = &lines[..lines.len() - 1];
        entries.iter().map(|entry| entry[0]).collect()
    }

    /// The group of the last line.
    fn ending(&self) -> u32 {
        match self.lines()[..] {
            [.., ref last] if last.len() == 3 => STOPPED + last[1],
            [.., ref last] => REFUSED + last[0],
            [] => unreachable!("a line is always printed"),
        }
    }
}

impl Sampled for Case {
    fn size(&self) -> usize {
        HEAD + self.input.len() + self.output.len()
    }

    fn groups(&self) -> BTreeSet<u32> {
        self.rules().into_iter().chain([self.ending()]).collect()
    }
}

/// How many entries there are of each rule.
pub fn count(cases: &[Case]) -> BTreeMap<u32, usize> {
    let mut counts = BTreeMap::new();
    for rule in cases.iter().flat_map(Case::rules) {
        *counts.entry(rule).or_default() += 1;
    }
    counts
}

/// The film of a thematic break and a text of two bytes.
fn small() -> Vec<u8> {
    films::film(&(plain(3, 1).to_vec(), b"a\n".to_vec()))
}

/// A small film cut at every length, and grown.
fn cut() -> Vec<Vec<u8>> {
    let whole = small();
    let cut = (0..=whole.len()).map(|length| whole[..length].to_vec());
    let grown = [&b"\n"[..], b" ", b"\0", b"a\n"].map(|more| [&whole[..], more].concat());
    cut.chain(grown).collect()
}

/// A small film with each field that a film can be damaged by, in each of its
/// counts and in two fields of its record.
fn fields() -> Vec<Vec<u8>> {
    let starts = [0, 11, 23, 23 + 11 * 11];
    let with = |field: &&str| {
        starts.map(|start| {
            let mut film = small();
            film[start..start + 11].copy_from_slice(field.as_bytes());
            film
        })
    };
    films::FIELDS.iter().flat_map(with).collect()
}

/// Films at the limits but the longest of those that say nothing new.
fn limits() -> Vec<Vec<u8>> {
    let left_out = ["most of both, cut", "most faults"];
    let limits = films::limits().into_iter();
    limits
        .filter(|(name, film)| !left_out.contains(name) && film.len() <= MOST_INPUT)
        .map(|(_, film)| film)
        .collect()
}

/// Sheets of random trees, of those with each stop mended in turn, and of
/// those with something done to them, as films.
fn sheets() -> Vec<Vec<u8>> {
    let mut sheets = Vec::new();
    for seed in 0..3000 {
        let mut numbers = Numbers::new(!seed);
        let mut sheet = random::tree(seed, 1 + (seed % 8) as usize);
        sheets.push(damaged(&mut numbers, sheet.clone()));
        sheets.push(sheet.clone());
        for _ in 0..MOST_MENDED {
            let Some(stop) = Run::of(&sheet.0, &sheet.1).stop else {
                break;
            };
            sheet = mend::mended(&mut numbers, sheet, stop.number, stop.record);
            sheets.push(sheet.clone());
        }
    }
    sheets.iter().map(films::film).collect()
}

/// A damaged sheet of whole records.
fn damaged(numbers: &mut Numbers, sheet: Sheet) -> Sheet {
    let (mut words, text) = damage::damaged(numbers, sheet);
    words.truncate(words.len() / RECORD_WORDS * RECORD_WORDS);
    (words, text)
}

/// Films of none to eight empty paragraphs, each with an entry; and of larger
/// and of deep trees, for longer lists and paths.
fn pages() -> Vec<Vec<u8>> {
    let empty = (0..=8).map(|count| (vec![plain(1, 1); count].concat(), Vec::new()));
    let trees = (0..12).map(|seed| random::tree(seed, 30));
    let deep = (0..8).map(|seed| random::deep(seed, 6));
    let sheets = empty.chain(trees).chain(deep);
    sheets.map(|sheet| films::film(&sheet)).collect()
}

/// Films of random trees with something done to them.
fn damaged_films() -> Vec<Vec<u8>> {
    let film = |seed: u64| {
        let film = films::film(&random::tree(seed, 1 + (seed % 5) as usize));
        films::damaged(&mut Numbers::new(!seed), film)
    };
    (0..200).map(film).collect()
}

/// The stored films, none twice: those at the limits, a small one cut and with
/// bad fields, large and deep ones, damaged ones, and an even sample of sheets.
pub fn cases() -> Vec<Case> {
    let fixed = [limits(), cut(), fields(), pages(), damaged_films()].concat();
    let mut cases: Vec<Case> = fixed.into_iter().map(Case::new).collect();
    let taken: usize = cases.iter().map(Case::size).sum();
    let pool = shuffled(sheets()).into_iter().map(Case::new).collect();
    cases.extend(even(pool, MOST_BYTES - taken));
    none_twice(cases)
}

#[cfg(test)]
mod tests {
    use super::*;
    use std::sync::LazyLock;

    /// The stored films, made once for all tests.
    static CASES: LazyLock<Vec<Case>> = LazyLock::new(cases);

    #[test]
    fn many_and_bounded() {
        assert!(CASES.len() >= 500, "{}", CASES.len());
        assert!(CASES.iter().map(Case::size).sum::<usize>() <= MOST_BYTES);
        assert!(CASES.iter().all(|case| case.input.len() <= MOST_INPUT));
        let longest = CASES.iter().map(|case| case.input.len()).max();
        assert_eq!(longest, Some(MOST_INPUT));
    }

    #[test]
    fn every_rule_refusal_and_stop_occurs() {
        let rules = count(&CASES);
        assert!(rules.keys().copied().eq(1..=56), "{rules:?}");
        let mut endings = BTreeMap::new();
        for case in &*CASES {
            *endings.entry(case.ending()).or_insert(0) += 1;
        }
        let refused = (4..=11).chain([13, 14]).map(|number| REFUSED + number);
        let stopped = (0..=14).map(|stop| STOPPED + stop);
        assert!(endings.keys().copied().eq(refused.chain(stopped)));
        // An entry too many is rare: such films are long.
        let few = endings.iter().filter(|(_, &count)| count < 5);
        assert!(
            few.map(|(&ending, _)| ending).eq([REFUSED + 11]),
            "{endings:?}"
        );
    }

    #[test]
    fn every_length_of_a_list_occurs() {
        let lengths: BTreeSet<usize> = CASES.iter().map(|case| case.rules().len()).collect();
        assert!(
            (0..=8).all(|length| lengths.contains(&length)),
            "{lengths:?}"
        );
        assert!(lengths.contains(&256) && lengths.contains(&512));
    }
}
