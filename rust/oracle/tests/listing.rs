//! The plain listing on films written by hand: document 01's example, the
//! refusals 13 and 14 in their order, fields that are not good, and films at
//! the limits of records, text and report.

use oracle::{listing, RECORD_WORDS};

type Record = [u32; RECORD_WORDS];

/// Document 01's example: one heading of depth 0, and what is printed.
const EXAMPLE: &str = "          1          0
          2          1          0          0          0          0          0          0          0          0          0          0
";
const EXAMPLE_LISTED: &str = "         10          0          0          0          1          0
          1          6          0
";

const BAD_COLUMN: &str = "         13          0\n";
const BIG_FILM: &str = "         14          0\n";
const SHORT_REPORT: &str = "         11          0\n";

/// A record of a kind and a level; all else is 0.
fn plain(kind: u32, level: u32) -> Record {
    let mut record = [0; RECORD_WORDS];
    record[0] = kind;
    record[1] = level;
    record
}

/// The line of these numbers.
fn line(numbers: &[u32]) -> String {
    let fields = numbers.iter().map(|number| format!("{number:>11}"));
    fields.chain(["\n".to_string()]).collect()
}

fn film(records: &[Record], text: &str) -> String {
    let counts = line(&[records.len() as u32, text.len() as u32]);
    let records: String = records.iter().map(|record| line(record)).collect();
    counts + &records + text
}

fn listed(input: &str) -> String {
    String::from_utf8(listing(input.as_bytes())).unwrap()
}

#[test]
fn example() {
    assert_eq!(film(&[plain(2, 1)], ""), EXAMPLE);
    assert_eq!(listed(EXAMPLE), EXAMPLE_LISTED);
}

#[test]
fn nothing_is_at_the_end() {
    assert_eq!(listed(&line(&[0, 0])), line(&[0, 0, 0]));
    assert_eq!(listed(&film(&[plain(3, 1); 2], "any\n")), line(&[0, 0, 2]));
}

/// "a refusal prints number and record only"; each at record 1.
#[test]
fn refusals_of_the_check() {
    let with = |at: usize, value: u32, mut record: Record| {
        record[at] = value;
        record
    };
    let text = |record| with(9, 1, record);
    let cases: [(u32, Record, &str); 7] = [
        (4, plain(18, 1), ""),
        (5, plain(3, 3), ""),
        (6, plain(31, 1), ""),
        (7, with(5, 256, plain(2, 1)), ""),
        (8, text(plain(14, 1)), ""),
        (9, text(plain(14, 1)), "\u{80}"),
        (10, plain(9, 1), ""),
    ];
    for (number, record, text) in cases {
        let listed = listed(&film(&[plain(3, 1), record], text));
        assert_eq!(listed, line(&[number, 1]));
    }
}

/// 13 for the first line, then 14, then 13 for the others, then the check's.
#[test]
fn refusals_in_order() {
    let after_14 = ["", "x", "            \n"];
    for counts in [[513, 0], [0, 16_385], [u32::MAX, u32::MAX]] {
        for rest in after_14 {
            assert_eq!(listed(&(line(&counts) + rest)), BIG_FILM);
        }
        // The first line is malformed, and would say too much.
        let first = line(&counts);
        assert_eq!(listed(first.trim_end_matches('\n')), BAD_COLUMN);
        assert_eq!(listed(&first.replace('\n', "\r\n")), BAD_COLUMN);
        assert_eq!(listed(&first.replacen(' ', "0", 1)), BAD_COLUMN);
    }
    let unknown = film(&[plain(18, 1), plain(3, 1)], "ab");
    assert_eq!(listed(&unknown), line(&[4, 0]));
    assert_eq!(listed(&(unknown.clone() + "c")), BAD_COLUMN);
    assert_eq!(listed(&unknown[..unknown.len() - 1]), BAD_COLUMN);
    let second = 23 + 133 + 10;
    let mut malformed = unknown.into_bytes();
    malformed[second] = b' ';
    assert_eq!(listing(&malformed), BAD_COLUMN.as_bytes());
}

/// Every place of a record's second field, which is its level, in each way
/// that is not good; and the good ones.
#[test]
fn fields() {
    let with = |field: &str| {
        let good = film(&[plain(3, 1)], "");
        let (before, after) = (&good[..23 + 11], &good[23 + 22..]);
        listed(&(before.to_string() + field + after))
    };
    assert_eq!(with("          1"), line(&[0, 0, 1]));
    assert_eq!(with("          0"), line(&[5, 0]));
    assert_eq!(with(" 4294967295"), line(&[5, 0]));
    let bad = [
        " 4294967296",
        "42949672951",
        "99999999999",
        "00000000001",
        "         01",
        "         00",
        "         +1",
        "         -1",
        "1          ",
        "         1 ",
        "       1  1",
        "\t         1",
        "         \t1",
        "\u{a0}        1",
        "           ",
        "          x",
        "        1.0",
        "        1e0",
        "        0x1",
        "      1,000",
        "         1\n",
        "         1",
        "           1",
    ];
    for field in bad {
        assert_eq!(with(field), BAD_COLUMN, "{field:?}");
    }
}

#[test]
fn line_endings() {
    let good = film(&[plain(3, 1), plain(3, 1)], "a\r\nb");
    assert_eq!(listed(&good), line(&[0, 0, 2]));
    for end in [22, 22 + 133, 22 + 2 * 133] {
        for ending in ["\r\n", "\r", " \n", "\n\n", "\u{b}", ""] {
            let changed = [&good[..end], ending, &good[end + 1..]].concat();
            assert_eq!(listed(&changed), BAD_COLUMN, "{end} {ending:?}");
        }
    }
}

/// Every length below the whole, and a byte more.
#[test]
fn cut() {
    let whole = film(&[plain(1, 1), plain(2, 1)], "text");
    for length in 0..whole.len() {
        assert_eq!(listed(&whole[..length]), BAD_COLUMN, "{length}");
    }
    // The paragraph is empty (2, stop 10), and the heading's depth is 0.
    let entries = line(&[2, 0, 0, 0, 1, 0]) + &line(&[10, 0, 0, 0, 1, 1]);
    assert_eq!(listed(&whole), entries + &line(&[2, 10, 0]));
    for behind in ["\n", " ", "\0"] {
        assert_eq!(listed(&(whole.clone() + behind)), BAD_COLUMN);
    }
}

#[test]
fn most_records() {
    let breaks = |count| film(&vec![plain(3, 1); count], "");
    assert_eq!(listed(&breaks(512)), line(&[0, 0, 512]));
    assert_eq!(listed(&breaks(513)), BIG_FILM);
}

#[test]
fn most_text() {
    let text = |bytes| film(&[plain(3, 1)], &"x".repeat(bytes));
    assert_eq!(listed(&text(16_384)), line(&[0, 0, 1]));
    assert_eq!(listed(&text(16_385)), BIG_FILM);
    let whole = text(16_384);
    assert_eq!(listed(&whole[..whole.len() - 1]), BAD_COLUMN);
    assert_eq!(listed(&(whole + "x")), BAD_COLUMN);
}

/// Ten quotes, one in another, and so many headings of depth 0 in the last:
/// each has an entry of 16 words.
fn headings(count: usize) -> String {
    let quotes = (1..=10).map(|level| plain(4, level));
    let headings = vec![plain(2, 11); count];
    film(&quotes.chain(headings).collect::<Vec<_>>(), "")
}

#[test]
fn full_report() {
    let full = listed(&headings(256));
    assert_eq!(full.lines().count(), 257);
    let mut last = [10, 0, 0, 0, 11].to_vec();
    last.extend([0; 10]);
    last.push(255);
    let ending = line(&last) + &line(&[256, 6, 10]);
    assert!(full.ends_with(&ending));
    assert_eq!(full.len(), 256 * 177 + 34);
    assert_eq!(listed(&headings(257)), SHORT_REPORT);
    // 255 entries of 16 words and one of 17: a word too many.
    let (quotes, longer) = ((1..=10).map(|level| plain(4, level)), plain(2, 12));
    let records: Vec<Record> = quotes
        .chain(vec![plain(2, 11); 255])
        .chain([plain(4, 11), longer])
        .collect();
    assert_eq!(listed(&film(&records, "")), SHORT_REPORT);
    let one_less = listed(&film(&records[..records.len() - 1], ""));
    assert!(one_less.ends_with(&line(&[255, 6, 10])));
}
