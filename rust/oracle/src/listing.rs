//! The listing program, read from document 01 as plainly as can be: what it
//! prints for what it reads.

use alloc::{format, string::String, vec::Vec};

use crate::{document::list, machine::Run, refusal::refusal, RECORD_WORDS};

/// "right-justified in 11 places"
const PLACES: usize = 11;

/// "over 512 records or 16,384 text bytes"
const MOST_RECORDS: usize = 512;
const MOST_TEXT: usize = 16_384;

/// "its report has 4,096 words"
const REPORT_WORDS: usize = 4096;

/// Number and record of a refusal. The record is 0 "for 11 and above".
type Refused = (u32, usize);

const SHORT_REPORT: Refused = (11, 0);
const BAD_COLUMN: Refused = (13, 0);
const BIG_FILM: Refused = (14, 0);

/// What the program prints: "It prints a line an entry, then diagnostics, stop
/// (0 at the end), record; a refusal prints number and record only."
pub fn listing(input: &[u8]) -> Vec<u8> {
    let lines = match listed(input) {
        Ok(lines) => lines.concat(),
        Err((number, record)) => line(&[number, record as u32]),
    };
    lines.into_bytes()
}

/// The lines for a film that is not refused.
fn listed(input: &[u8]) -> Result<Vec<String>, Refused> {
    let (words, text) = film(input)?;
    match refusal(&words, text) {
        (0, _) => {}
        refused => return Err(refused),
    }
    let list = list(&words, text);
    if list.len() > REPORT_WORDS {
        return Err(SHORT_REPORT);
    }
    let mut lines = Vec::new();
    let mut rest = &list[..];
    while !rest.is_empty() {
        // "Report entry: rule, span flag, start, end, path length, path."
        let (entry, after) = rest.split_at(5 + rest[4] as usize);
        lines.push(line(entry));
        rest = after;
    }
    // "Answer: end and record count, or stop and the record being opened or
    // closed."
    let records = words.len() / RECORD_WORDS;
    let (stop, record) = match Run::of(&words, text).stop {
        None => (0, records),
        Some(stop) => (stop.number, stop.record),
    };
    lines.push(line(&[lines.len() as u32, stop, record as u32]));
    Ok(lines)
}

/// "The program tests its first line (13, then 14), then each line, before the
/// call".
fn film(input: &[u8]) -> Result<(Vec<u32>, &[u8]), Refused> {
    let (counts, mut rest) = fields(input, 2).ok_or(BAD_COLUMN)?;
    let [records, bytes] = [counts[0] as usize, counts[1] as usize];
    if records > MOST_RECORDS || bytes > MOST_TEXT {
        return Err(BIG_FILM);
    }
    let mut words = Vec::new();
    for _ in 0..records {
        let (record, after) = fields(rest, RECORD_WORDS).ok_or(BAD_COLUMN)?;
        words.extend(record);
        rest = after;
    }
    // "or text too short or long"
    match rest.len() == bytes {
        true => Ok((words, rest)),
        false => Err(BAD_COLUMN),
    }
}

/// The fields of the first line, "ended by LF", and what stands behind it.
fn fields(input: &[u8], count: usize) -> Option<(Vec<u32>, &[u8])> {
    let (line, after) = input.split_at_checked(count * PLACES)?;
    let after = after.strip_prefix(b"\n")?;
    let fields: Option<Vec<u32>> = line.chunks(PLACES).map(field).collect();
    Some((fields?, after))
}

/// "Fields are decimal, at most 4,294,967,295, right-justified in 11 places,
/// no leading zeros": so a field is good that is how its number is written.
fn field(places: &[u8]) -> Option<u32> {
    let number = core::str::from_utf8(places)
        .ok()?
        .trim_start()
        .parse()
        .ok()?;
    (written(number).as_bytes() == places).then_some(number)
}

fn written(number: u32) -> String {
    format!("{number:>PLACES$}")
}

fn line(fields: &[u32]) -> String {
    let fields: String = fields.iter().map(|&number| written(number)).collect();
    fields + "\n"
}
