//! Calls at the limits of a sheet's records and a text's bytes, and past
//! them: sheets of thematic breaks, texts of zeros. The program that replays
//! them makes both itself.

use std::sync::LazyLock;

use cases::plain;
use oracle::{Run, RECORD_WORDS, REFUSED};

/// "over 65,535 records", "over 16,777,216 bytes".
const MOST_RECORDS: usize = 65_535;
const MOST_BYTES: usize = 16_777_216;

/// The words of as many records as may be.
const MOST_WORDS: usize = MOST_RECORDS * RECORD_WORDS;

/// What is called, by its number in the files.
#[derive(Clone, Copy, PartialEq, Eq, Debug)]
pub enum Function {
    Check = 0,
    Set = 1,
}

/// A call, and what is wanted of it.
#[derive(Clone, PartialEq, Eq, Debug)]
pub struct Case {
    pub function: Function,
    pub sheet_words: usize,
    pub text_bytes: usize,
    /// How many words are lent to be written into: the report or the marks.
    pub lent_words: usize,
    /// How many words at their front are written; each with 0.
    pub written: usize,
    pub answer: u64,
}

/// Thematic breaks at level 1, so many words of them.
fn breaks(words: usize) -> Vec<u32> {
    plain(3, 1).into_iter().cycle().take(words).collect()
}

/// The calls with so many words and bytes. The plain reading of a long sheet
/// takes a while, so it is read once.
fn calls(sheet_words: usize, text_bytes: usize) -> Vec<Case> {
    let (sheet, text) = (breaks(sheet_words), vec![0; text_bytes]);
    let (number, record) = oracle::refusal(&sheet, &text);
    let run = match number {
        0 => Run::of(&sheet, &text),
        _ => Run::default(),
    };
    if number == 0 {
        assert!(oracle::list(&sheet, &text).is_empty());
        assert!(run.marks.iter().all(|&mark| mark == 0));
    }
    let case = |function, lent_words, written, (number, low): (u32, usize)| Case {
        function,
        sheet_words,
        text_bytes,
        lent_words,
        written,
        answer: u64::from(number) << 32 | low as u64,
    };
    let check = |words| case(Function::Check, words, 0, (number, record));
    let set = |marks| {
        let answer = match number {
            0 => run.answer(sheet_words / RECORD_WORDS, marks),
            _ => (REFUSED + number, record),
        };
        let written = if answer.0 < REFUSED {
            run.marks.len()
        } else {
            0
        };
        case(Function::Set, marks, written, answer)
    };
    let marks = [0, MOST_RECORDS - 1, MOST_RECORDS, MOST_RECORDS + 3];
    let checks = [0, 7].map(check);
    checks.into_iter().chain(marks.map(set)).collect()
}

/// Every case, made once.
pub fn cases() -> &'static [Case] {
    static CASES: LazyLock<Vec<Case>> = LazyLock::new(all);
    &CASES
}

fn all() -> Vec<Case> {
    let sizes = [
        (0, MOST_BYTES),
        (0, MOST_BYTES + 1),
        (RECORD_WORDS, MOST_BYTES + 1),
        (MOST_WORDS, MOST_BYTES),
        (MOST_WORDS, MOST_BYTES + 1),
        (MOST_WORDS + RECORD_WORDS, 0),
        (MOST_WORDS + RECORD_WORDS, MOST_BYTES + 1),
        (MOST_WORDS + 1, MOST_BYTES + 1),
        (MOST_WORDS + RECORD_WORDS + 1, 0),
    ];
    let calls = sizes.map(|(words, bytes)| calls(words, bytes));
    calls.into_iter().flatten().collect()
}

#[cfg(test)]
mod tests {
    use super::*;

    /// Refusals 2 and 3 of both functions, each beside what is accepted, and
    /// 1 before them.
    #[test]
    fn answers() {
        let all = cases();
        let answers = |function, words: usize, bytes: usize| -> Vec<u64> {
            let of = all.iter().filter(|case| {
                (case.function, case.sheet_words, case.text_bytes) == (function, words, bytes)
            });
            of.map(|case| case.answer).collect()
        };
        let check = |words, bytes| answers(Function::Check, words, bytes);
        let set = |words, bytes| answers(Function::Set, words, bytes);
        assert_eq!(check(0, 16_777_216), [0; 2]);
        assert_eq!(check(0, 16_777_217), [3 << 32; 2]);
        assert_eq!(check(786_420, 16_777_216), [0; 2]);
        assert_eq!(check(786_420, 16_777_217), [3 << 32; 2]);
        assert_eq!(check(786_432, 0), [2 << 32; 2]);
        assert_eq!(check(786_432, 16_777_217), [2 << 32; 2]);
        assert_eq!(check(786_421, 16_777_217), [1 << 32; 2]);
        assert_eq!(set(0, 16_777_216), [0; 4]);
        assert_eq!(set(0, 16_777_217), [259 << 32; 4]);
        let short = 268 << 32;
        assert_eq!(set(786_420, 16_777_216), [short, short, 65_535, 65_535]);
        assert_eq!(set(786_432, 0), [258 << 32; 4]);
        assert_eq!(set(786_433, 0), [257 << 32; 4]);
        let written: Vec<usize> = all.iter().map(|case| case.written).collect();
        assert_eq!(written.iter().filter(|&&words| words == 65_535).count(), 2);
        assert!(written.iter().all(|&words| words == 0 || words == 65_535));
    }
}
