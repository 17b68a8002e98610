//! The plain setting machine on sheets written by hand: each stop with its
//! nearest neighbour that does not stop, the openings and closings, the
//! marks, the path of the block.

use oracle::{refusal, set, Run, Step, Stop, RECORD_WORDS, STOP_RULES};

type Record = [u32; RECORD_WORDS];

/// The text of every sheet here: a letter, LF, CR.
const TEXT: &[u8] = b"a\n\r";

/// A record of a kind and a level; all else is 0.
fn plain(kind: u32, level: u32) -> Record {
    let mut record = [0; RECORD_WORDS];
    record[0] = kind;
    record[1] = level;
    record
}

/// The record with A.
fn a(a: u32, mut record: Record) -> Record {
    record[5] = a;
    record
}

/// The record with B.
fn b(b: u32, mut record: Record) -> Record {
    record[6] = b;
    record
}

/// An item with its own number.
fn numbered(number: u32, level: u32) -> Record {
    let mut item = b(1, plain(20, level));
    item[7] = number;
    item
}

/// The record with the start and length of its first text.
fn first(start: u32, length: u32, mut record: Record) -> Record {
    record[8..10].copy_from_slice(&[start, length]);
    record
}

/// A text of one letter.
fn letter(level: u32) -> Record {
    first(0, 1, plain(31, level))
}

/// The run over an accepted sheet.
fn run(records: &[Record]) -> Run {
    let sheet = records.concat();
    assert_eq!(refusal(&sheet, TEXT), (0, 0));
    Run::of(&sheet, TEXT)
}

/// Number, record and path of the stop.
fn stop(records: &[Record]) -> Option<(u32, usize, Vec<u32>)> {
    let Stop {
        number,
        record,
        path,
    } = run(records).stop?;
    Some((number, record, path))
}

/// The sheet stops so, and its neighbour does not stop.
fn stops(number: u32, record: usize, path: &[u32], records: &[Record], neighbour: &[Record]) {
    assert_eq!(stop(records), Some((number, record, path.to_vec())));
    assert_eq!(stop(neighbour), None);
}

/// A table of one row of so many cells.
fn table(columns: u32, cells: usize) -> Vec<Record> {
    let head = [a(columns, plain(12, 1)), plain(21, 2)];
    let cells = vec![plain(22, 3); cells];
    [&head[..], &cells].concat()
}

/// These inlines under a paragraph.
fn paragraph(inlines: &[Record]) -> Vec<Record> {
    [&[plain(1, 1)][..], inlines].concat()
}

#[test]
fn stop_1() {
    // The third cell is record 4; its block is the table.
    stops(1, 4, &[0], &table(2, 3), &table(2, 2));
    // In the second row the cells are counted anew.
    let [row, cell] = [plain(21, 2), plain(22, 3)];
    let second = |cells: &[Record]| [&table(1, 1)[..], &[row], cells].concat();
    stops(1, 5, &[0], &second(&[cell, cell]), &second(&[cell]));
    assert_eq!(stop(&table(0, 1)), Some((1, 2, vec![0])));
}

#[test]
fn stop_2() {
    stops(2, 1, &[0], &table(2, 1), &table(2, 2));
    // The row is closed before the next one opens.
    let [row, cell] = [plain(21, 2), plain(22, 3)];
    let short_first = [&table(2, 1)[..], &[row, cell, cell]].concat();
    assert_eq!(stop(&short_first), Some((2, 1, vec![0])));
    let short_last = [&table(1, 1)[..], &[row]].concat();
    assert_eq!(stop(&short_last), Some((2, 3, vec![0])));
    assert_eq!(stop(&table(u32::MAX, 1)), Some((2, 1, vec![0])));
}

#[test]
fn stop_3() {
    stops(3, 0, &[0], &[a(1, plain(12, 1))], &table(1, 1));
    // No column: the row has no cell too few, but the table stops.
    assert_eq!(stop(&table(0, 0)), Some((3, 0, vec![0])));
    assert_eq!(stop(&[plain(12, 1)]), Some((3, 0, vec![0])));
}

#[test]
fn stop_4() {
    for inline_break in [plain(46, 4), plain(47, 4), a(1, plain(47, 4))] {
        let cell = [&table(1, 1)[..], &[inline_break]].concat();
        stops(4, 3, &[0], &cell, &table(1, 1));
    }
    for directive in [15, 16] {
        let label = |kind| [plain(directive, 1), plain(kind, 2)];
        stops(4, 1, &[0], &label(46), &label(33));
        // At any depth, also under a text directive.
        for inline in [34, 40, 42, 50, 52] {
            let deep = [plain(directive, 1), plain(inline, 2), plain(47, 3)];
            assert_eq!(stop(&deep), Some((4, 2, vec![0])));
        }
    }
    // In what else holds inlines a break may stand; so may one of a paragraph
    // under a container directive.
    let tags = [plain(23, 2), plain(23, 2)];
    let container = [&[a(1, plain(9, 1))][..], &tags, &[plain(46, 2)]].concat();
    for free in [
        paragraph(&[plain(46, 2)]),
        paragraph(&[plain(52, 2), plain(46, 3)]),
        vec![a(1, plain(2, 1)), plain(46, 2)],
        container,
        vec![plain(16, 1), plain(1, 2), plain(46, 3)],
    ] {
        assert_eq!(stop(&free), None);
    }
    // A thematic break is no inline break.
    assert_eq!(stop(&[plain(16, 1), plain(3, 2)]), None);
}

#[test]
fn stop_5() {
    for outer in [40, 43] {
        for inner in [40, 41, 43, 51] {
            let under = |kind| paragraph(&[plain(outer, 2), plain(kind, 3)]);
            stops(5, 2, &[0], &under(inner), &under(42));
            let deep = paragraph(&[plain(outer, 2), plain(42, 3), plain(50, 4), plain(inner, 5)]);
            assert_eq!(stop(&deep), Some((5, 4, vec![0])));
            let beside = paragraph(&[plain(outer, 2), plain(inner, 2)]);
            assert_eq!(stop(&beside), None);
        }
    }
    for outer in [34, 42, 44, 50, 52] {
        let under = paragraph(&[plain(outer, 2), plain(40, 3)]);
        assert_eq!(stop(&under), None);
    }
}

#[test]
fn stop_6() {
    let heading = |depth| [a(depth, plain(2, 1))];
    stops(6, 0, &[0], &heading(0), &heading(1));
    stops(6, 0, &[0], &heading(7), &heading(6));
    stops(6, 0, &[0], &heading(255), &heading(3));
}

/// A list with A and one item.
fn list(ordered: u32, item: Record) -> [Record; 2] {
    [a(ordered, plain(6, 1)), item]
}

#[test]
fn stop_7() {
    let ordered = |number| list(1, numbered(number, 2));
    stops(7, 1, &[0], &ordered(1_000_000_000), &ordered(999_999_999));
    stops(7, 1, &[0], &ordered(u32::MAX), &ordered(0));
    // Every item's own number is looked at, and not what it is counted to.
    let [list, item] = ordered(999_999_999);
    assert_eq!(stop(&[list, item, plain(20, 2)]), None);
    let later = [list, item, numbered(1_000_000_000, 2)];
    assert_eq!(stop(&later), Some((7, 2, vec![0])));
}

#[test]
fn stop_8() {
    let bullet = list(0, numbered(0, 2));
    stops(8, 1, &[0], &bullet, &list(0, plain(20, 2)));
    // 7 is of ordered items alone.
    let large = list(0, numbered(u32::MAX, 2));
    stops(8, 1, &[0], &large, &list(1, numbered(1, 2)));
}

#[test]
fn stop_9() {
    let item = list(0, plain(20, 2));
    stops(9, 0, &[0], &[plain(6, 1)], &item);
    assert_eq!(stop(&list(1, plain(20, 2))), None);
    // A blank line is no item, and the list is closed before it.
    let before = [plain(6, 1), plain(17, 1)];
    assert_eq!(stop(&before), Some((9, 0, vec![0])));
}

#[test]
fn stop_10() {
    let empty = plain(31, 2);
    stops(10, 0, &[0], &[plain(1, 1)], &paragraph(&[letter(2)]));
    stops(
        10,
        0,
        &[0],
        &paragraph(&[empty, empty]),
        &paragraph(&[empty, letter(2)]),
    );
    for kind in 34..=37 {
        let under = |inlines: &[Record]| paragraph(&[&[plain(kind, 2)][..], inlines].concat());
        let [empty, code] = [plain(31, 3), plain(39, 3)];
        stops(10, 1, &[0], &under(&[]), &under(&[code]));
        stops(10, 1, &[0], &under(&[empty]), &under(&[letter(3), empty]));
        // A text one level further down is not its own.
        let deeper = under(&[plain(50, 3), plain(31, 4)]);
        assert_eq!(stop(&deeper), None);
    }
    // No other kind stops so.
    for free in [
        vec![a(1, plain(2, 1))],
        paragraph(&[plain(40, 2)]),
        paragraph(&[plain(50, 2)]),
        vec![plain(4, 1)],
        vec![plain(15, 1), empty],
    ] {
        assert_eq!(stop(&free), None);
    }
}

#[test]
fn stop_11() {
    let spaces = a(1, plain(47, 2));
    let [soft, backslash] = [plain(46, 2), plain(47, 2)];
    for before in [soft, backslash, spaces] {
        for after in [soft, spaces] {
            let twice = paragraph(&[before, after]);
            let apart = paragraph(&[before, plain(31, 2), after]);
            stops(11, 2, &[0], &twice, &apart);
        }
        assert_eq!(stop(&paragraph(&[before, backslash])), None);
    }
    // A break in what stands before is no sibling.
    let inside = paragraph(&[plain(40, 2), plain(46, 3), soft]);
    assert_eq!(stop(&inside), None);
    let first_inside = paragraph(&[soft, plain(40, 2), plain(46, 3)]);
    assert_eq!(stop(&first_inside), None);
}

#[test]
fn stop_12() {
    let front = |level| plain(14, level);
    stops(12, 1, &[0, 0], &[plain(4, 1), front(2)], &[front(1)]);
    assert_eq!(stop(&[plain(3, 1), front(1)]), None);
    let item = list(0, plain(20, 2));
    let in_item = [&item[..], &[plain(3, 3), front(3)]].concat();
    assert_eq!(stop(&in_item), Some((12, 3, vec![0, 0, 1])));
}

#[test]
fn stop_13() {
    for kind in [31, 39] {
        let value = |start, length| paragraph(&[first(start, length, plain(kind, 2))]);
        stops(13, 1, &[0], &value(0, 2), &value(0, 1));
        stops(13, 1, &[0], &value(2, 1), &paragraph(&[letter(2)]));
    }
    // Other kinds may hold a line ending.
    for kind in [41, 45, 53] {
        let value = paragraph(&[first(0, 3, plain(kind, 2))]);
        assert_eq!(stop(&value), None);
    }
    assert_eq!(stop(&[first(0, 3, plain(7, 1))]), None);
}

/// A list of a marker with an item.
fn marked(ordered: u32, delimiter: u32) -> [Record; 2] {
    list(ordered, plain(20, 2)).map(|record| match record[0] {
        6 => b(delimiter, record),
        _ => record,
    })
}

#[test]
fn stop_14() {
    // The written markers of document 01.
    let markers = ["-*+--", "....)"];
    for (left, right) in (0..10).flat_map(|left| (0..10).map(move |right| (left, right))) {
        let marker = |at: usize| markers[at / 5].as_bytes()[at % 5];
        let of = |at: usize| marked(at as u32 / 5, at as u32 % 5);
        let side_by_side = [of(left), of(right)].concat();
        let same = marker(left) == marker(right);
        let wanted = same.then(|| (14, 2, vec![1]));
        assert_eq!(stop(&side_by_side), wanted);
    }
    let between = |block: Record| [&marked(0, 0)[..], &[block], &marked(0, 0)].concat();
    stops(14, 3, &[2], &between(plain(17, 1)), &between(plain(3, 1)));
    // The list before stands beside it, and not around it or in another.
    let quoted = [&[plain(4, 1), plain(6, 2), plain(20, 3)][..], &marked(0, 0)].concat();
    assert_eq!(stop(&quoted), None);
    let nested = [&marked(0, 0)[..], &[plain(6, 3), plain(20, 4)]].concat();
    assert_eq!(stop(&nested), None);
    let blank_inside = [&marked(0, 0)[..], &[plain(17, 3)], &marked(0, 0)].concat();
    assert_eq!(stop(&blank_inside), Some((14, 3, vec![1])));
}

/// What comes first in the run stops it, whatever its number.
#[test]
fn first_stop() {
    // A break after a break is 11; in a label the first of them is 4.
    let breaks = [plain(46, 2), plain(46, 2)];
    assert_eq!(stop(&paragraph(&breaks)), Some((11, 2, vec![0])));
    let label = [&[plain(15, 1)][..], &breaks].concat();
    assert_eq!(stop(&label), Some((4, 1, vec![0])));
    // The heading (6) opens before the table with a cell too many (1), and
    // the paragraph is closed (10) before the heading opens (6).
    let heading = plain(2, 1);
    let later = [&[heading][..], &table(0, 1)].concat();
    assert_eq!(stop(&later), Some((6, 0, vec![0])));
    let closed = [plain(1, 1), heading];
    assert_eq!(stop(&closed), Some((10, 0, vec![0])));
    // Innermost first: the emphasis is closed before its paragraph.
    let nested = [plain(4, 1), plain(1, 2), plain(34, 3)];
    assert_eq!(stop(&nested), Some((10, 2, vec![0, 0])));
}

/// Records open in order and close innermost first.
#[test]
fn steps() {
    use Step::{Close, Open};
    let sheet = [
        plain(4, 1),
        a(1, plain(2, 2)),
        letter(3),
        plain(3, 2),
        plain(3, 1),
    ];
    let all = run(&sheet);
    assert_eq!(
        all.steps,
        [
            Open(0),
            Open(1),
            Open(2),
            Close(2),
            Close(1),
            Open(3),
            Close(3),
            Close(0),
            Open(4),
            Close(4),
        ]
    );
    assert_eq!((all.marks, all.stop), (vec![0, 1, 0, 0, 0], None));
    assert_eq!(run(&[]), Run::default());
    // What stops is not done: neither the opening of record 2, nor the
    // closing of record 1.
    let opening = run(&[plain(4, 1), plain(3, 2), plain(2, 2)]);
    assert_eq!(opening.steps, [Open(0), Open(1), Close(1)]);
    assert_eq!(opening.marks, [0, 0]);
    let closing = run(&[plain(4, 1), plain(6, 2), plain(3, 1)]);
    assert_eq!(closing.steps, [Open(0), Open(1)]);
    assert_eq!(closing.marks, [0, 0]);
}

#[test]
fn marks() {
    let marks = |records: &[Record]| run(records).marks;
    assert_eq!(marks(&[a(4, plain(2, 1)), a(6, plain(2, 1))]), [4, 6]);
    assert_eq!(marks(&table(3, 3)), [0, 0, 1, 2, 3]);
    let rows = [&table(2, 2)[..], &table(2, 2)[1..]].concat();
    assert_eq!(marks(&rows), [0, 0, 1, 2, 0, 1, 2]);
    // The first item's number, or 1 without one, plus the position.
    let item = plain(20, 2);
    let ordered = |items: &[Record]| [&[a(1, plain(6, 1))][..], items].concat();
    assert_eq!(marks(&ordered(&[item, item])), [0, 1, 2]);
    let first_unnumbered = [item, numbered(7, 2), item, numbered(0, 2), item];
    assert_eq!(marks(&ordered(&first_unnumbered)), [0, 1, 2, 3, 4, 5]);
    let seven = [numbered(7, 2), numbered(3, 2), item];
    assert_eq!(marks(&ordered(&seven)), [0, 7, 8, 9]);
    assert_eq!(marks(&ordered(&[numbered(0, 2), item])), [0, 0, 1]);
    let past = [numbered(999_999_999, 2), item, item];
    assert_eq!(
        marks(&ordered(&past)),
        [0, 999_999_999, 1_000_000_000, 1_000_000_001]
    );
    // A bullet item has no number.
    assert_eq!(marks(&[plain(6, 1), item, item]), [0, 0, 0]);
    // Each list counts its own items.
    let inner = [a(1, b(4, plain(6, 3))), plain(20, 4), plain(20, 4)];
    let nested = [&[numbered(5, 2)][..], &inner, &[item]].concat();
    assert_eq!(marks(&ordered(&nested)), [0, 5, 0, 1, 2, 6]);
    let two = [
        &ordered(&[numbered(5, 2)])[..],
        &[plain(3, 1)],
        &ordered(&[item]),
    ]
    .concat();
    assert_eq!(marks(&two), [0, 5, 0, 0, 1]);
    // The record that stops gets none.
    let stopped = [a(1, plain(2, 1)), a(7, plain(2, 1)), plain(3, 1)];
    assert_eq!(marks(&stopped), [1]);
}

/// "one index for each block and item": tags, attributes, inlines, rows and
/// cells are none.
#[test]
fn paths() {
    let path = |records: &[Record]| run(records).stop.map(|stop| stop.path);
    let tags = [plain(23, 2), plain(23, 2)];
    let in_container = [
        &[plain(3, 1), plain(9, 1)][..],
        &tags,
        &[plain(3, 2), plain(2, 2)],
    ];
    assert_eq!(path(&in_container.concat()), Some(vec![1, 1]));
    let in_directive = [
        plain(16, 1),
        plain(24, 2),
        letter(2),
        plain(3, 2),
        plain(2, 2),
    ];
    assert_eq!(path(&in_directive), Some(vec![0, 1]));
    // An item that stops is in its list.
    let items = [
        plain(4, 1),
        plain(3, 2),
        plain(6, 2),
        plain(20, 3),
        numbered(1, 3),
    ];
    assert_eq!(path(&items), Some(vec![0, 1]));
    // A block in the second item.
    let second = [
        plain(6, 1),
        plain(20, 2),
        plain(20, 2),
        plain(3, 3),
        plain(1, 3),
    ];
    assert_eq!(path(&second), Some(vec![0, 1, 1]));
    // A cell and an inline are in their table.
    let table = |inline| {
        let row = [plain(21, 2), plain(22, 3), inline];
        [&[plain(3, 1), a(1, plain(12, 1))][..], &row].concat()
    };
    assert_eq!(path(&table(plain(46, 4))), Some(vec![1]));
    assert_eq!(path(&table(plain(37, 4))), Some(vec![1]));
}

#[test]
fn answers() {
    let answer = |records: &[Record], text: &[u8], marks| set(&records.concat(), text, marks).0;
    let two = [plain(3, 1), plain(3, 1)];
    assert_eq!(answer(&[], b"", 0), 0);
    assert_eq!(answer(&two, b"", 2), 2);
    assert_eq!(answer(&two, b"", 3), 2);
    assert_eq!(answer(&two, b"", 1), 268 << 32);
    assert_eq!(answer(&two, b"", 0), 268 << 32);
    let heading = [plain(3, 1), plain(2, 1), plain(3, 1)];
    assert_eq!(answer(&heading, b"", 3), 6 << 32 | 1);
    assert_eq!(answer(&heading, b"", 2), 268 << 32);
    // Every other refusal comes before 12.
    let misplaced = [plain(3, 1), plain(31, 1)];
    for marks in [0, 2] {
        assert_eq!(answer(&misplaced, b"", marks), 262 << 32 | 1);
        assert_eq!(set(&[0; 13], b"", marks).0, 257 << 32);
    }
    let missing = [plain(3, 1), plain(9, 1)];
    assert_eq!(answer(&missing, b"", 0), 266 << 32 | 1);
    assert_eq!(set(&misplaced.concat(), b"", 2).1, Run::default());
}

/// Document 01's third column.
#[test]
fn rules() {
    let mut named: Vec<u32> = STOP_RULES.concat();
    named.sort_unstable();
    named.dedup();
    let all = [
        1, 2, 10, 12, 16, 17, 18, 19, 20, 22, 23, 28, 31, 37, 39, 42, 45, 49, 50,
    ];
    assert_eq!(named, all);
    assert_eq!(STOP_RULES[3], [20, 22, 23]);
    assert_eq!(STOP_RULES[13], [1]);
}
