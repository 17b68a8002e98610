//! Sheets at each limit of document 01, and one past it.

use cases::{home, plain, Record, RECORD_WORDS};

/// A sheet at a limit, and what it is.
pub struct Limit {
    pub name: String,
    pub sheet: Vec<u32>,
    pub text: Vec<u8>,
}

/// How many records a sheet may have, and how many bytes a text.
const MOST_RECORDS: usize = 65_535;
const MOST_BYTES: usize = 16_777_216;

/// The record with one word changed.
fn with(field: usize, value: u32, mut record: Record) -> Record {
    record[field] = value;
    record
}

fn limit(name: impl Into<String>, records: &[Record], text: &[u8]) -> Limit {
    Limit {
        name: name.into(),
        sheet: records.concat(),
        text: text.to_vec(),
    }
}

/// Every limit; `long` has more of those whose plain reading takes seconds.
pub fn limits(long: bool) -> Vec<Limit> {
    let mut all = words();
    all.extend(texts());
    all.extend(levels());
    all.extend(values());
    all.extend(markers());
    all.extend(numbers());
    all.extend(records());
    if long {
        all.extend(long_records());
    }
    all
}

/// The number of words, odd and empty.
fn words() -> Vec<Limit> {
    let mut all: Vec<Limit> = (0..=25)
        .map(|words| Limit {
            name: format!("{words} words"),
            sheet: [plain(3, 1), plain(17, 1), plain(3, 1)].concat()[..words].to_vec(),
            text: Vec::new(),
        })
        .collect();
    // Long and odd: 1 comes before 2 and 3.
    for words in [
        RECORD_WORDS * MOST_RECORDS - 1,
        RECORD_WORDS * MOST_RECORDS + 1,
        RECORD_WORDS * (MOST_RECORDS + 1) + 1,
    ] {
        all.push(Limit {
            name: format!("{words} words of 0"),
            sheet: vec![0; words],
            text: Vec::new(),
        });
    }
    all
}

/// The number of text bytes, and parts at the text's end.
fn texts() -> Vec<Limit> {
    let whole = vec![b'a'; MOST_BYTES];
    let long = vec![b'a'; MOST_BYTES + 1];
    let value = |start, length| {
        let record = with(9, length, with(8, start, plain(31, 2)));
        [plain(1, 1), record]
    };
    let bytes = MOST_BYTES as u32;
    let mut ends_badly = whole.clone();
    ends_badly[MOST_BYTES - 1] = 0xC3;
    let mut ends_line = whole.clone();
    ends_line[MOST_BYTES - 1] = b'\r';
    let odd = vec![0; 13];
    vec![
        limit("a text of all bytes", &value(0, bytes), &whole),
        limit("the last byte ends a line", &value(0, bytes), &ends_line),
        limit("the last byte is cut", &value(0, bytes), &ends_badly),
        limit("all but a cut byte", &value(0, bytes - 1), &ends_badly),
        limit("an empty part at the end", &value(bytes, 0), &whole),
        limit("an empty part past the end", &value(bytes + 1, 0), &whole),
        limit("a byte past the end", &value(bytes, 1), &whole),
        limit("a part one too long", &value(1, bytes), &whole),
        limit("the longest part", &value(0, u32::MAX), &whole),
        limit("the sum is 2^32", &value(1, u32::MAX), &whole),
        limit("the farthest part", &value(u32::MAX, u32::MAX), &whole),
        limit("the farthest empty part", &value(u32::MAX, 0), &whole),
        limit("a byte too many", &value(0, 1), &long),
        limit("a byte too many, no records", &[], &long),
        limit("all bytes, no records", &[], &whole),
        Limit {
            name: "a byte too many, odd".into(),
            sheet: odd,
            text: long,
        },
    ]
}

/// A chain of these, each under the one before.
fn chain(depth: u32, kind: impl Fn(u32) -> Record) -> Vec<Record> {
    (1..=depth)
        .map(|level| with(1, level, kind(level)))
        .collect()
}

/// Levels down to 64 and 65, over each way to get there.
fn levels() -> Vec<Limit> {
    let mut all = Vec::new();
    for depth in [1, 2, 62, 63, 64, 65, 66] {
        for block in [4, 5, 11, 16] {
            let name = format!("{depth} levels of kind {block}");
            all.push(limit(name, &chain(depth, |_| plain(block, 0)), b""));
        }
        let lists = chain(depth, |level| plain(if level % 2 == 1 { 6 } else { 20 }, 0));
        all.push(limit(format!("{depth} levels of lists"), &lists, b""));
        for inline in [34, 37, 40, 42, 43, 44, 50, 52] {
            let kind = |level| plain(if level == 1 { 1 } else { inline }, 0);
            let name = format!("{depth} levels of inlines {inline}");
            all.push(limit(name, &chain(depth, kind), b""));
        }
        let mut broken = chain(depth, |level| plain(if level == 1 { 1 } else { 36 }, 0));
        broken.push(with(5, 1, plain(47, depth + 1)));
        all.push(limit(format!("{depth} levels and a break"), &broken, b""));
        let mut table = chain(depth, |_| plain(4, 0));
        for (below, kind) in [(1, 12), (2, 21), (3, 22), (4, 31), (4, 46)] {
            table.push(plain(kind, depth + below));
        }
        all.push(limit(format!("{depth} levels and a table"), &table, b""));
        let mut container = chain(depth, |_| plain(4, 0));
        container.extend([
            plain(9, depth + 1),
            plain(23, depth + 2),
            plain(23, depth + 2),
        ]);
        all.push(limit(
            format!("{depth} levels and a container"),
            &container,
            b"",
        ));
        let alone = [plain(9, depth)];
        let above = chain(depth - 1, |_| plain(4, 0));
        let name = format!("a container without tags at {depth}");
        all.push(limit(name, &[above, alone.to_vec()].concat(), b""));
    }
    for level in [0, 1, 2, 3, 63, 64, 65, u32::MAX] {
        all.push(limit(
            format!("level {level} first"),
            &[plain(3, level)],
            b"",
        ));
        let after = [plain(4, 1), plain(3, level)];
        all.push(limit(format!("level {level} second"), &after, b""));
        let third = [plain(4, 1), plain(4, 2), plain(3, level)];
        all.push(limit(format!("level {level} third"), &third, b""));
    }
    all
}

/// Each value of a field that is a bound somewhere, in each kind; and each
/// with B and C as well, since some bounds hang on others.
fn values() -> Vec<Limit> {
    let bounds = [
        0,
        1,
        2,
        3,
        4,
        5,
        6,
        7,
        255,
        256,
        0xD7FF,
        0xD800,
        0xDFFF,
        0xE000,
        65_535,
        65_536,
        0x10_FFFF,
        0x11_0000,
        999_999_999,
        1_000_000_000,
        u32::MAX,
    ];
    let mut all = Vec::new();
    for kind in 0..=56 {
        let before = home(kind);
        let base = plain(kind, before.len() as u32 + 1);
        let mut push = |name: String, record: Record| {
            let mut records = before.clone();
            records.push(record);
            if kind == 23 {
                records.push(plain(23, 2));
            }
            all.push(limit(name, &records, "aé".as_bytes()));
        };
        for field in 2..RECORD_WORDS {
            for value in bounds {
                push(
                    format!("kind {kind}, word {field} is {value}"),
                    with(field, value, base),
                );
            }
        }
        for a in [0, 1, 2, 3] {
            for b in [0, 1, 2, 4, 5, 255, 256] {
                for c in [0, 1, 2, 999_999_999, 1_000_000_000, u32::MAX] {
                    let record = with(7, c, with(6, b, with(5, a, base)));
                    push(format!("kind {kind}, A {a}, B {b}, C {c}"), record);
                }
                for part in [[0, 1, 0, 0], [0, 0, 1, 2], [2, 1, 0, 0], [0, 0, 4, 0]] {
                    let mut record = with(6, b, with(5, a, base));
                    record[8..].copy_from_slice(&part);
                    push(format!("kind {kind}, A {a}, B {b}, parts {part:?}"), record);
                }
            }
        }
    }
    all
}

/// Two lists of every two markers, with what may stand between them.
fn markers() -> Vec<Limit> {
    let list = |marker: u32| {
        let list = with(6, marker % 5, with(5, marker / 5, plain(6, 1)));
        [with(7, 1, list), plain(20, 2)]
    };
    let betweens: [&[Record]; 5] = [
        &[],
        &[plain(17, 1)],
        &[plain(17, 1), plain(17, 1)],
        &[plain(3, 1)],
        &[plain(17, 1), plain(3, 1), plain(17, 1)],
    ];
    let mut all = Vec::new();
    for left in 0..10 {
        for right in 0..10 {
            for between in betweens {
                let records = [&list(left)[..], between, &list(right)].concat();
                let name = format!("lists {left} and {right}, {} between", between.len());
                all.push(limit(name, &records, b""));
            }
        }
    }
    all
}

/// Items with each two numbers at a bound, and one without behind them.
fn numbers() -> Vec<Limit> {
    let numbers = [
        None,
        Some(0),
        Some(1),
        Some(999_999_998),
        Some(999_999_999),
        Some(1_000_000_000),
        Some(u32::MAX),
    ];
    let item = |number: Option<u32>| match number {
        Some(number) => with(7, number, with(6, 1, plain(20, 2))),
        None => plain(20, 2),
    };
    let mut all = Vec::new();
    for ordered in 0..2 {
        let list = with(5, ordered, plain(6, 1));
        for first in numbers {
            for second in numbers {
                let records = [list, item(first), item(second), plain(20, 2)];
                let name = format!("ordered {ordered}, items {first:?} and {second:?}");
                all.push(limit(name, &records, b""));
            }
        }
    }
    all
}

/// As many records as may be, and one more. The plain reading looks back for
/// each parent, which stands near here.
fn records() -> Vec<Limit> {
    let items = |records: usize| -> Vec<Record> {
        let list = with(7, 1, plain(6, 1));
        let item = [plain(20, 2), with(5, 0, plain(2, 3))];
        let parts = [&[list][..], &item].concat();
        parts.into_iter().cycle().take(records).collect()
    };
    let cells = |records: usize| -> Vec<Record> {
        let row = [plain(21, 2), plain(22, 3), plain(46, 4)];
        let table = with(5, 2, plain(12, 1));
        let parts = [&[table][..], &row, &row, &row].concat();
        parts.into_iter().cycle().take(records).collect()
    };
    let mut last_bad = items(MOST_RECORDS);
    last_bad[MOST_RECORDS - 1][5] = 256;
    let mut last_tagless = items(MOST_RECORDS);
    last_tagless[MOST_RECORDS - 1] = plain(9, 1);
    vec![
        limit("65,535 records of lists", &items(MOST_RECORDS), b""),
        limit("65,536 records of lists", &items(MOST_RECORDS + 1), b""),
        limit("65,534 records of tables", &cells(MOST_RECORDS - 1), b""),
        limit("65,535 records of tables", &cells(MOST_RECORDS), b""),
        limit("65,536 records of tables", &cells(MOST_RECORDS + 1), b""),
        limit("a bad last record", &last_bad, b""),
        limit("tags missing at the last record", &last_tagless, b""),
    ]
}

/// All records under one: the paths' last index is as large as can be.
fn long_records() -> Vec<Limit> {
    let flat = |kind, level, first: &[Record]| -> Vec<Record> {
        let mut records = first.to_vec();
        records.resize(MOST_RECORDS, plain(kind, level));
        records
    };
    // The highest number that an item may have of its own, and the others
    // behind it.
    let highest = with(7, 999_999_999, with(6, 1, plain(20, 2)));
    let numbered = [with(5, 1, plain(6, 1)), highest];
    let aligned = [with(5, 65_533, plain(12, 1)), plain(21, 2)];
    vec![
        limit("65,535 headings", &flat(2, 1, &[]), b""),
        limit("65,534 breaks", &flat(46, 2, &[plain(1, 1)]), b""),
        limit("65,534 items", &flat(20, 2, &[plain(6, 1)]), b""),
        limit("65,534 numbered items", &flat(20, 2, &numbered), b""),
        limit("65,534 attributes", &flat(24, 2, &[plain(15, 1)]), b""),
        limit(
            "65,533 cells",
            &flat(22, 3, &[plain(12, 1), plain(21, 2)]),
            b"",
        ),
        limit("65,533 cells, all aligned", &flat(22, 3, &aligned), b""),
        limit("65,534 rows", &flat(21, 2, &[plain(12, 1)]), b""),
    ]
}
