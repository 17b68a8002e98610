//! Records word by word.

use reedsander::RECORD_WORDS;

pub type Record = [u32; RECORD_WORDS];

/// A record of a kind and a level; all else is 0.
pub fn plain(kind: u32, level: u32) -> Record {
    with(1, level, with(0, kind, [0; RECORD_WORDS]))
}

/// The record with one word changed.
pub fn with(field: usize, value: u32, mut record: Record) -> Record {
    record[field] = value;
    record
}
