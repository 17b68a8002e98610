//! Films: a sheet and its text in one file.

use std::fmt::Write;

use crate::RECORD_WORDS;

/// A sheet and its text as a film, the file that Reedsander's listing program
/// reads: a line of the counts of records and of text bytes, a line for each
/// record, the text. Each number is right-justified in 11 places.
#[must_use]
pub fn film(sheet: &[u32], text: &[u8]) -> Vec<u8> {
    let mut lines = String::new();
    let mut line = |numbers: &[usize]| {
        for number in numbers {
            write!(lines, "{number:>11}").expect("a string takes all");
        }
        lines.push('\n');
    };
    line(&[sheet.len() / RECORD_WORDS, text.len()]);
    for record in sheet.chunks(RECORD_WORDS) {
        let numbers: Vec<usize> = record.iter().map(|&word| word as usize).collect();
        line(&numbers);
    }
    let mut bytes = lines.into_bytes();
    bytes.extend(text);
    bytes
}
