//! What the example of a setter prints.

#[path = "../examples/reel/mod.rs"]
mod reel;

/// The lines of the document that is set.
const SET: [&str; 9] = [
    "heading of depth 1: Reel 2",
    "cell in column 1: shot",
    "cell in column 2: printer lights",
    "cell in column 1: 14",
    "cell in column 2: 26 25 29",
    "cell in column 1: 15",
    "cell in column 2: 27 25 28",
    "item 7: density",
    "item 8: timing",
];

/// The lines of the one with faults.
const FAULTY: [&str; 4] = [
    "rule 10 (heading depth) at 0, bytes 0 to 16: heading, \"Reel 2\"",
    "rule 19 (table: row width) at 1/2: row, \"15\"",
    "rule 50 (item number: over nine digits) at 2/0: item, \"numbered 4294967297\"",
    "rule 2 (empty paragraph) at 2/1/0: paragraph",
];

#[test]
fn pages() {
    let printed = reel::documents().map(|(_, document)| reel::page(&document));
    let wanted = [&SET[..], &FAULTY]
        .map(|lines| -> String { lines.iter().map(|line| format!("  {line}\n")).collect() });
    assert_eq!(printed, wanted);
}
