//! Both functions on a stack of 256 KiB: they recurse over levels alone, of
//! which there are at most 64.

mod records;

use std::thread;

use records::{plain, with, Record};
use reedsander::{check, set, Setting, RECORD_WORDS};

const STACK: usize = 256 * 1024;

/// One record without a text; a list is tight.
fn record(kind: u32, level: u32) -> Record {
    with(7, u32::from(kind == 6), plain(kind, level))
}

/// The words of the list, and how the machine ends.
fn both(sheet: &[u32]) -> (Vec<u32>, Setting) {
    let mut report = vec![0; 600_000];
    let mut marks = vec![0; sheet.len() / RECORD_WORDS];
    let entries = check(sheet, b"", &mut report).unwrap();
    let list = entries.words().to_vec();
    (list, set(sheet, b"", &mut marks).unwrap())
}

/// The same on a small stack, and that it is the same.
fn on_small_stack(sheet: &[u32]) -> (Vec<u32>, Setting) {
    let owned = sheet.to_vec();
    let thread = thread::Builder::new().stack_size(STACK);
    let found = thread.spawn(move || both(&owned)).unwrap();
    let found = found.join().unwrap();
    assert_eq!(found, both(sheet));
    found
}

/// Block quotes down to level 63, and a thematic break under them.
#[test]
fn deepest_blocks() {
    let mut sheet: Vec<u32> = (1..=63).flat_map(|level| record(4, level)).collect();
    sheet.extend(record(3, 64));
    let (list, setting) = on_small_stack(&sheet);
    assert_eq!((list.len(), setting), (0, Setting::Ended { records: 64 }));
}

/// Lists and items in turn down to level 64.
#[test]
fn deepest_items() {
    let kinds = [6, 20].into_iter().cycle();
    let records = (1..=64).zip(kinds);
    let sheet: Vec<u32> = records
        .flat_map(|(level, kind)| record(kind, level))
        .collect();
    let (_, setting) = on_small_stack(&sheet);
    assert_eq!(setting, Setting::Ended { records: 64 });
}

/// A paragraph, and marks in marks down to level 64: the last holds nothing,
/// so the machine stops as it closes.
#[test]
fn deepest_inlines() {
    let mut sheet = record(1, 1).to_vec();
    sheet.extend((2..=64).flat_map(|level| record(37, level)));
    let (list, setting) = on_small_stack(&sheet);
    assert!(!list.is_empty());
    assert!(matches!(setting, Setting::Stopped { record: 63, .. }));
}

/// As many records as there may be.
#[test]
fn longest() {
    let sheet: Vec<u32> = (0..65_535).flat_map(|_| record(3, 1)).collect();
    let (list, setting) = on_small_stack(&sheet);
    let records = 65_535;
    assert_eq!((list.len(), setting), (0, Setting::Ended { records }));
}
