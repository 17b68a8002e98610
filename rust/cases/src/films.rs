//! Films: sheets with their texts, as the listing program reads them.

use crate::{plain, random, Numbers, Record, Sheet, RECORD_WORDS};

/// The places of a field, and the bytes of the first line and of a record's.
const PLACES: usize = 11;
const COUNTS_LINE: usize = 2 * PLACES + 1;
const RECORD_LINE: usize = RECORD_WORDS * PLACES + 1;

/// "over 512 records or 16,384 text bytes"
const MOST_RECORDS: usize = 512;
const MOST_TEXT: usize = 16_384;

/// A line of numbers.
fn line(numbers: &[u32]) -> String {
    let fields = numbers.iter().map(|number| format!("{number:>PLACES$}"));
    fields.chain(["\n".to_string()]).collect()
}

/// The film of a sheet of whole records and its text.
pub fn film((words, text): &Sheet) -> Vec<u8> {
    let counts = [words.len() / RECORD_WORDS, text.len()].map(|count| count as u32);
    with_counts(counts, (words, text))
}

/// The film with other counts than its own.
fn with_counts(counts: [u32; 2], (words, text): (&[u32], &[u8])) -> Vec<u8> {
    let records = words.chunks_exact(RECORD_WORDS).map(line);
    let lines: String = [line(&counts)].into_iter().chain(records).collect();
    [lines.as_bytes(), text].concat()
}

/// What a byte may become: digits, what may stand beside them, line endings.
const BYTES: [u8; 24] = *b"0123456789  \n\r\t+-.x,\0\x0b\x80\xff";

/// Fields that are not good, and some that are.
pub const FIELDS: [&str; 20] = [
    "          0",
    " 4294967295",
    " 4294967296",
    " 9999999999",
    "10000000000",
    "42949672950",
    "00000000000",
    "         01",
    "         00",
    "         +1",
    "         -0",
    "1          ",
    "         1 ",
    "        1 1",
    "         \t1",
    "\t         1",
    "           ",
    "         1\n",
    "\n         1",
    "        \r\n1",
];

/// The film with one thing done to it, rarely two.
pub fn damaged(numbers: &mut Numbers, mut film: Vec<u8>) -> Vec<u8> {
    for _ in 0..numbers.one(&[1, 1, 1, 1, 2]) {
        damage(numbers, &mut film);
    }
    film
}

fn damage(numbers: &mut Numbers, film: &mut Vec<u8>) {
    if film.is_empty() {
        film.push(numbers.one(&BYTES));
        return;
    }
    let at = numbers.index(film.len());
    match numbers.below(12) {
        0 | 1 => film[at] = numbers.one(&BYTES),
        2 => drop(film.remove(at)),
        3 => film.insert(at, numbers.one(&BYTES)),
        4 => film.truncate(at),
        5 => film.extend(vec![numbers.one(&BYTES); 1 + numbers.index(4)]),
        6 | 7 => field(numbers, film),
        8 => swap(numbers, film),
        9 => ending(numbers, film),
        10 => drop(film.pop()),
        _ => counts(numbers, film),
    }
}

/// Where the lines of the film begin; of a damaged one where they would.
fn lines(film: &[u8]) -> Vec<usize> {
    let records = (COUNTS_LINE..film.len()).step_by(RECORD_LINE);
    let whole = records.filter(|start| film.get(start + RECORD_LINE - 1) == Some(&b'\n'));
    [0].into_iter().chain(whole).collect()
}

/// One field becomes another.
fn field(numbers: &mut Numbers, film: &mut [u8]) {
    let line = numbers.one(&lines(film));
    let fields = if line == 0 { 2 } else { RECORD_WORDS };
    let start = line + PLACES * numbers.index(fields);
    if let Some(places) = film.get_mut(start..start + PLACES) {
        places.copy_from_slice(numbers.one(&FIELDS).as_bytes());
    }
}

/// Two lines of records change places.
fn swap(numbers: &mut Numbers, film: &mut [u8]) {
    let lines = lines(film);
    let [one, other] = [(); 2].map(|()| numbers.one(&lines));
    if one == 0 || other == 0 {
        return;
    }
    for at in 0..RECORD_LINE {
        film.swap(one + at, other + at);
    }
}

/// A line ends with something else than LF.
fn ending(numbers: &mut Numbers, film: &mut Vec<u8>) {
    let line = numbers.one(&lines(film));
    let end = line + if line == 0 { COUNTS_LINE } else { RECORD_LINE } - 1;
    if end < film.len() {
        let ending: &[u8] = numbers.one(&[&b"\r\n"[..], b"\r", b"", b" \n", b"\n\n"]);
        film.splice(end..=end, ending.iter().copied());
    }
}

/// One of the counts is another number: by one, or past a limit.
fn counts(numbers: &mut Numbers, film: &mut [u8]) {
    let start = PLACES * numbers.index(2);
    let Some(places) = film.get_mut(start..start + PLACES) else {
        return;
    };
    let text = String::from_utf8_lossy(places);
    let old: u32 = text.trim_start().parse().unwrap_or(0);
    let near = [old.wrapping_add(1), old.saturating_sub(1)];
    let far = [0, 512, 513, 16_384, 16_385, u32::MAX];
    let new = numbers.one(&[near.as_slice(), &near, &far].concat());
    places.copy_from_slice(format!("{new:>PLACES$}").as_bytes());
}

/// A film of random notes.
pub fn random(seed: u64) -> Vec<u8> {
    film(&match seed % 32 {
        0 => random::deep(seed, 12),
        1 => random::tree(seed, 60),
        _ => random::tree(seed, 1 + (seed % 11) as usize),
    })
}

/// Ten quotes, one in another, and so many headings of depth 0 in the last:
/// each has an entry of 16 words, so that 256 fill a report of 4,096.
fn headings(count: usize) -> Vec<Record> {
    let quotes = (1..=10).map(|level| plain(4, level));
    quotes.chain(vec![plain(2, 11); count]).collect()
}

/// The same with 255 of them and, in one quote more, another: its entry has 17
/// words, so that the list has 4,097.
fn one_word_more() -> Vec<Record> {
    let last = [plain(4, 11), plain(2, 12)];
    [&headings(255)[..], &last].concat()
}

/// So many headings of depth 0 behind each other: each has an entry of 6 words.
fn flat(count: usize) -> Vec<Record> {
    vec![plain(2, 1); count]
}

/// Films at the limits of records, text and report, and past them, by name.
pub fn limits() -> Vec<(&'static str, Vec<u8>)> {
    let of = |records: &[Record], text: usize| film(&(records.concat(), vec![b'x'; text]));
    let breaks = |count| vec![plain(3, 1); count];
    let large = [u32::MAX; 2];
    let cut = |film: Vec<u8>| film[..film.len() - 1].to_vec();
    let grown = |film: Vec<u8>| [&film[..], b"x"].concat();
    let largest = || of(&breaks(MOST_RECORDS), MOST_TEXT);
    vec![
        ("nothing", Vec::new()),
        ("no records", of(&[], 0)),
        ("no records, text", of(&[], 7)),
        ("most records", of(&breaks(MOST_RECORDS), 0)),
        ("a record more", of(&breaks(MOST_RECORDS + 1), 0)),
        ("most text", of(&breaks(1), MOST_TEXT)),
        ("a byte more", of(&breaks(1), MOST_TEXT + 1)),
        ("most of both", largest()),
        ("most of both, cut", cut(largest())),
        ("most of both, grown", grown(largest())),
        ("most of both, far grown", [largest(), largest()].concat()),
        ("largest counts", with_counts(large, (&[], b""))),
        ("most entries of a line", of(&flat(MOST_RECORDS), 0)),
        ("full report", of(&headings(256), 0)),
        ("a word too many", of(&one_word_more(), 0)),
        ("an entry too many", of(&headings(257), 0)),
        ("most faults", of(&headings(502), 0)),
    ]
}

#[cfg(test)]
mod tests {
    use super::*;
    use std::collections::BTreeSet;

    #[test]
    fn example() {
        let lines = [
            "          1          2",
            "          2          1          0          0          0          0          0          0          0          0          0          0",
            "x",
            "",
        ];
        let sheet = (plain(2, 1).to_vec(), b"x\n".to_vec());
        assert_eq!(film(&sheet), lines.join("\n").into_bytes());
        assert_eq!(lines.map(str::len)[..2], [COUNTS_LINE - 1, RECORD_LINE - 1]);
    }

    #[test]
    fn most_differ() {
        let mut numbers = Numbers::new(0);
        let same = (0..1000).filter(|&seed| {
            let film = random(seed);
            damaged(&mut numbers, film.clone()) == film
        });
        assert!(same.count() < 200);
    }

    /// The largest film, and that no name stands twice.
    #[test]
    fn limits_by_name() {
        let limits = limits();
        let names: BTreeSet<&str> = limits.iter().map(|(name, _)| *name).collect();
        assert_eq!(names.len(), limits.len());
        let length = |name| {
            limits
                .iter()
                .find(|(other, _)| *other == name)
                .unwrap()
                .1
                .len()
        };
        assert_eq!(length("most of both"), 84_503);
        assert_eq!(length("most of both, grown"), 84_504);
    }
}
