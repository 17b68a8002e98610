//! The stored files: records one after another, integers little-endian.

use std::collections::{BTreeMap, HashSet};

use crate::{
    checks, films, inlines,
    leaves::answers,
    limits::{self, Function},
    sheets,
    texts::{self, strings},
};

/// No file but `checks` and `films` is longer: the program that replays them reads so
/// many bytes.
const LONGEST: usize = 262_144;

/// What every word of a report is before a check, which it must be behind it
/// too where the check does not write.
#[cfg(test)]
pub const BEFORE: u32 = 0xA5A5_A5A5;

/// One stored file.
#[derive(PartialEq, Eq, Debug)]
pub struct File {
    pub name: &'static str,
    pub records: usize,
    pub bytes: Vec<u8>,
    /// How many entries of each rule are in its reports, where it has some.
    pub entries: BTreeMap<u32, usize>,
}

impl File {
    fn new(name: &'static str) -> Self {
        Self {
            name,
            records: 0,
            bytes: Vec::new(),
            entries: BTreeMap::new(),
        }
    }

    /// How long it may be.
    pub fn longest(&self) -> usize {
        match self.name {
            "checks" => checks::MOST_BYTES,
            "films" => films::MOST_BYTES,
            _ => LONGEST,
        }
    }

    /// Adds a record of these fields.
    fn record(&mut self, fields: &[&[u8]]) {
        self.records += 1;
        for field in fields {
            self.bytes.extend_from_slice(field);
        }
    }
}

/// Every file, in the order in which they are written.
pub fn all() -> Vec<File> {
    let others = [
        pairs(),
        punctuation(),
        parts(),
        sheets(),
        inlines(),
        checks(),
        limits("long_checks", Function::Check),
        limits("long_sets", Function::Set),
        films(),
    ];
    text_files().into_iter().chain(others).collect()
}

/// The files of texts.
fn text_files() -> [File; 6] {
    [
        of_texts("utf8", texts::utf8()),
        of_texts("white", texts::white()),
        of_texts("lines", texts::lines()),
        of_texts("names", texts::names()),
        of_texts("tags", texts::tags()),
        of_texts("pipes", texts::pipes()),
    ]
}

/// The length of a text, in its one byte.
fn length(text: &[u8]) -> [u8; 1] {
    [u8::try_from(text.len()).expect("a text has at most 255 bytes")]
}

/// A count, in its two bytes.
fn count(count: usize) -> [u8; 2] {
    u16::try_from(count)
        .expect("counts are small")
        .to_le_bytes()
}

/// Words, in their four bytes each.
fn bytes(words: &[u32]) -> Vec<u8> {
    words.iter().flat_map(|word| word.to_le_bytes()).collect()
}

/// Length (1 byte), mask (2), answers (2), text.
fn of_texts(name: &'static str, texts: Vec<Vec<u8>>) -> File {
    let mut file = File::new(name);
    for text in texts {
        let (mask, answers) = answers(&text);
        file.record(&[
            &length(&text),
            &mask.to_le_bytes(),
            &answers.to_le_bytes(),
            &text,
        ]);
    }
    file
}

/// The pairs of texts that are compared byte by byte.
fn paired() -> Vec<(Vec<u8>, Vec<u8>)> {
    let mut list = Vec::new();
    let mut held = HashSet::new();
    for texts in [strings(b"ab", 3), strings(b"a\x00\xFF", 2)] {
        for left in &texts {
            for right in &texts {
                let pair = (left.clone(), right.clone());
                if held.insert(pair.clone()) {
                    list.push(pair);
                }
            }
        }
    }
    let long: Vec<u8> = (0..200).map(|at| b'a' + at % 26).collect();
    list.push((long.clone(), long.clone()));
    for at in [0, 100, 199] {
        let mut other = long.clone();
        other[at] = b'A';
        list.push((long.clone(), other.clone()));
        list.push((other, long.clone()));
    }
    for shorter in [&long[..199], &long[..100], &long[..1], &long[1..], b""] {
        list.push((long.clone(), shorter.to_vec()));
        list.push((shorter.to_vec(), long.clone()));
    }
    list
}

/// Two lengths (1 byte each), whether the texts are equal (1), the texts.
fn pairs() -> File {
    let mut file = File::new("pairs");
    for (left, right) in paired() {
        let same = [u8::from(left == right)];
        file.record(&[&length(&left), &length(&right), &same, &left, &right]);
    }
    file
}

/// Scalar value (4 bytes), whether it is ASCII punctuation (1).
fn punctuation() -> File {
    let mut file = File::new("punctuation");
    let far = [0xD7FF, 0xE000, 0xFF01, 0x2010, 0x10FFFF];
    for value in (0..=0x2FF).chain(far) {
        let scalar = char::from_u32(value).expect("no surrogate stands above");
        let answer = [u8::from(scalar.is_ascii_punctuation())];
        file.record(&[&value.to_le_bytes(), &answer]);
    }
    file
}

/// The part of `text` of `len` bytes from `start` on, and nothing where it is
/// not inside.
fn part(text: &[u8], start: u64, len: u64) -> &[u8] {
    let inside = || {
        let end = start.checked_add(len)?;
        text.get(usize::try_from(start).ok()?..usize::try_from(end).ok()?)
    };
    inside().unwrap_or_default()
}

/// Start (8 bytes), length (8), the part's length (1), the part: of a text of
/// the bytes 0 to 15.
fn parts() -> File {
    const NUMBERS: [u64; 13] = [
        0,
        1,
        2,
        7,
        8,
        9,
        15,
        16,
        17,
        u32::MAX as u64,
        1 << 32,
        1 << 63,
        u64::MAX,
    ];
    let text: Vec<u8> = (0..16).collect();
    let mut file = File::new("parts");
    for start in NUMBERS {
        for len in NUMBERS {
            let part = part(&text, start, len);
            file.record(&[
                &start.to_le_bytes(),
                &len.to_le_bytes(),
                &length(part),
                part,
            ]);
        }
    }
    file
}

/// How many words (2 bytes), how many text bytes (2), the refusal's number (1)
/// and record (2), the words (4 bytes each), the text.
fn sheets() -> File {
    let mut file = File::new("sheets");
    for (words, text) in sheets::all() {
        let (number, record) = oracle::refusal(&words, &text);
        file.record(&[
            &count(words.len()),
            &count(text.len()),
            &[number as u8],
            &count(record),
            &bytes(&words),
            &text,
        ]);
    }
    file
}

/// How many words (2 bytes), how many text bytes (2), how many words of the
/// report (2), the words (4 bytes each), the text, the report (4 bytes each).
fn inlines() -> File {
    let mut file = File::new("inlines");
    let cases = inlines::cases();
    for case in &cases {
        file.record(&[
            &count(case.words.len()),
            &count(case.text.len()),
            &count(case.report.len()),
            &bytes(&case.words),
            &case.text,
            &bytes(&case.report),
        ]);
    }
    file.entries = inlines::count(&cases);
    file
}

/// How many words, text bytes, words of the list, words of the report, marks
/// that are written, marks (2 bytes each), the check's answer, the machine's (8
/// bytes each), the words (4 bytes each), the text, the list, the marks that
/// are written (4 bytes each).
fn checks() -> File {
    let mut file = File::new("checks");
    let cases = checks::cases();
    for case in &cases {
        file.record(&[
            &count(case.words.len()),
            &count(case.text.len()),
            &count(case.list.len()),
            &count(case.report_words),
            &count(case.marks.len()),
            &count(case.marks_words),
            &case.answer.to_le_bytes(),
            &case.setting.to_le_bytes(),
            &bytes(&case.words),
            &case.text,
            &bytes(&case.list),
            &bytes(&case.marks),
        ]);
    }
    file.entries = checks::count(&cases);
    file
}

/// The function (0 check, 1 set), words of the sheet, bytes of the text, words
/// lent to be written into, bytes of those that are written (4 bytes each), the
/// answer (8).
fn limits(name: &'static str, function: Function) -> File {
    let mut file = File::new(name);
    let cases = limits::cases();
    for case in cases.iter().filter(|case| case.function == function) {
        let sizes = [
            function as usize,
            case.sheet_words,
            case.text_bytes,
            case.lent_words,
            4 * case.written,
        ];
        let sizes = sizes.map(|size| u32::try_from(size).expect("sizes are words"));
        file.record(&[&bytes(&sizes), &case.answer.to_le_bytes()]);
    }
    file
}

/// How many bytes the film has, how many are printed for it (4 bytes each),
/// the film, what is printed.
fn films() -> File {
    let mut file = File::new("films");
    let cases = films::cases();
    for case in &cases {
        let sizes = [case.input.len(), case.output.len()];
        let sizes = sizes.map(|size| u32::try_from(size).expect("sizes are words"));
        file.record(&[&bytes(&sizes), &case.input, &case.output]);
    }
    file.entries = films::count(&cases);
    file
}

#[cfg(test)]
mod tests {
    use super::*;

    /// Reading the films back gives what is printed for each, and ends at the
    /// file's end.
    #[test]
    fn films_read_back() {
        let file = films();
        let mut rest = &file.bytes[..];
        let mut records = 0;
        while !rest.is_empty() {
            let (head, after) = rest.split_at(films::HEAD);
            let size = |at: usize| u32::from_le_bytes(head[at..at + 4].try_into().unwrap());
            let (input, after) = after.split_at(size(0) as usize);
            let (output, after) = after.split_at(size(4) as usize);
            assert_eq!(oracle::listing(input), output);
            records += 1;
            rest = after;
        }
        assert_eq!(records, file.records);
    }

    #[test]
    fn always_the_same_bytes() {
        let files = all();
        assert_eq!(files, all());
        for file in &files {
            assert!(
                file.records > 0 && file.bytes.len() <= file.longest(),
                "{}",
                file.name
            );
        }
    }

    /// Reading the checks back gives what a check does to its report and the
    /// machine to its marks, and ends at its end.
    #[test]
    fn checks_read_back() {
        let file = checks();
        let words = |bytes: &[u8]| -> Vec<u32> {
            let words = bytes.chunks(4).map(|word| word.try_into().unwrap());
            words.map(u32::from_le_bytes).collect()
        };
        let mut rest = &file.bytes[..];
        let mut records = 0;
        while !rest.is_empty() {
            let (head, after) = rest.split_at(checks::HEAD);
            let size = |at| usize::from(u16::from_le_bytes([head[at], head[at + 1]]));
            let answer = |at: usize| u64::from_le_bytes(head[at..at + 8].try_into().unwrap());
            let (sheet, after) = after.split_at(4 * size(0));
            let (text, after) = after.split_at(size(2));
            let (list, after) = after.split_at(4 * size(4));
            let (written, after) = after.split_at(4 * size(8));
            let mut report = vec![BEFORE; size(6)];
            assert_eq!(check(&words(sheet), text, &mut report), answer(12));
            let (front, behind) = report.split_at(size(4));
            assert_eq!(front, words(list));
            assert!(behind.iter().all(|&word| word == BEFORE));
            let (setting, run) = oracle::set(&words(sheet), text, size(10));
            assert_eq!((setting, run.marks), (answer(20), words(written)));
            records += 1;
            rest = after;
        }
        assert_eq!(records, file.records);
    }

    /// A check as document 01 has it.
    fn check(sheet: &[u32], text: &[u8], report: &mut [u32]) -> u64 {
        let (number, record) = oracle::refusal(sheet, text);
        if number != 0 {
            return u64::from(number) << 32 | record as u64;
        }
        let list = oracle::list(sheet, text);
        if list.len() > report.len() {
            return 11 << 32;
        }
        report[..list.len()].copy_from_slice(&list);
        inlines::entries(&list).count() as u64
    }

    /// Reading a text file back gives as many records, and ends at its end.
    #[test]
    fn records_read_back() {
        for file in text_files() {
            let mut rest = &file.bytes[..];
            let mut records = 0;
            while let [n, m0, m1, a0, a1, tail @ ..] = rest {
                let (text, after) = tail.split_at(usize::from(*n));
                let mask = u16::from_le_bytes([*m0, *m1]);
                let answered = u16::from_le_bytes([*a0, *a1]);
                assert_eq!(answered & !mask, 0);
                assert_eq!(mask == 1, core::str::from_utf8(text).is_err());
                assert_eq!((mask, answered), answers(text));
                records += 1;
                rest = after;
            }
            assert!(rest.is_empty());
            assert_eq!(records, file.records);
        }
    }

    /// Reading the inlines back gives the cases, and ends at its end.
    #[test]
    fn inlines_read_back() {
        let file = inlines();
        let words = |bytes: &[u8]| -> Vec<u32> {
            let words = bytes.chunks(4).map(|word| word.try_into().unwrap());
            words.map(u32::from_le_bytes).collect()
        };
        let mut rest = &file.bytes[..];
        for case in inlines::cases() {
            let (head, after) = rest.split_at(6);
            let size = |at| usize::from(u16::from_le_bytes([head[at], head[at + 1]]));
            let (sheet, after) = after.split_at(4 * size(0));
            let (text, after) = after.split_at(size(2));
            let (report, after) = after.split_at(4 * size(4));
            assert_eq!(words(sheet), case.words);
            assert_eq!(text, case.text);
            assert_eq!(words(report), case.report);
            rest = after;
        }
        assert!(rest.is_empty());
    }

    #[test]
    fn no_pair_twice() {
        let pairs = paired();
        let held: HashSet<_> = pairs.iter().collect();
        assert_eq!(held.len(), pairs.len());
    }

    #[test]
    fn parts_are_inside() {
        let text: Vec<u8> = (0..16).collect();
        assert_eq!(part(&text, 15, 1), [15]);
        assert_eq!(part(&text, 0, 16), text);
        assert!(part(&text, 16, 0).is_empty());
        assert!(part(&text, 15, 2).is_empty());
        assert!(part(&text, 1, u64::MAX).is_empty());
        assert!(part(&text, u64::MAX, u64::MAX).is_empty());
    }

    #[test]
    fn ascii_punctuation_is_32() {
        let file = punctuation();
        let count = file.bytes.chunks(5).filter(|record| record[4] == 1).count();
        assert_eq!((file.records, count), (773, 32));
    }
}
