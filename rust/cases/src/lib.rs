//! Sheets to check, each from a seed or a fixed set: the same ones on every
//! run.

#![forbid(unsafe_code)]

pub mod damage;
pub mod draft;
pub mod exhaustive;
pub mod films;
pub mod letters;
pub mod mend;
pub mod names;
pub mod numbers;
pub mod random;
pub mod templates;

pub use numbers::Numbers;

/// How many words a record has.
pub const RECORD_WORDS: usize = 12;

/// The words of one record.
pub type Record = [u32; RECORD_WORDS];

/// A sheet and its text.
pub type Sheet = (Vec<u32>, Vec<u8>);

/// A record of a kind and a level, all else 0.
pub fn plain(kind: u32, level: u32) -> Record {
    let mut record = [0; RECORD_WORDS];
    record[0] = kind;
    record[1] = level;
    record
}

/// Where a record of a kind may stand: what comes before it.
pub fn home(kind: u32) -> Vec<Record> {
    match kind {
        20 => vec![plain(6, 1)],
        21 => vec![plain(12, 1)],
        22 => vec![plain(12, 1), plain(21, 2)],
        23 => vec![plain(9, 1)],
        24 => vec![plain(15, 1)],
        31..=53 => vec![plain(1, 1)],
        _ => vec![],
    }
}
