//! The checker called through the crate: refusals, entries, reports.

mod records;

use reedsander::{
    check, check_raw, check_to_vec, film,
    tree::{Attribute, Block, Cell, HtmlTag, Inline, Item, Marker, Row},
    Answer, Kind, Refusal, Rule, Sheet, RECORD_WORDS,
};

use records::{plain, with, Record};

/// What the words of a report are before the call.
const BEFORE: u32 = 0xA5A5_5A5A;

/// The refusal, which leaves the report as it was.
fn refusal(sheet: &[u32], text: &[u8]) -> Option<Refusal> {
    let mut report = [BEFORE; 64];
    let refusal = check(sheet, text, &mut report).err();
    assert!(refusal.is_none() || report == [BEFORE; 64]);
    refusal
}

#[test]
fn each_refusal_of_a_record() {
    let of = |records: &[Record]| refusal(&records.concat(), b"a\xFF");
    let text = plain(31, 2);
    let under = |record| of(&[plain(1, 1), record]);
    assert_eq!(
        of(&[plain(18, 1)]),
        Some(Refusal::UnknownKind { record: 0 })
    );
    assert_eq!(under(plain(31, 3)), Some(Refusal::BadLevel { record: 1 }));
    assert_eq!(under(plain(1, 2)), Some(Refusal::Misplaced { record: 1 }));
    let bad = Some(Refusal::BadField { record: 1 });
    assert_eq!(under(with(5, 1, text)), bad);
    let outside = Some(Refusal::TextOutside { record: 1 });
    assert_eq!(under(with(9, 3, text)), outside);
    let not_utf8 = Some(Refusal::NotUtf8 { record: 1 });
    assert_eq!(under(with(9, 2, text)), not_utf8);
    let missing = Some(Refusal::TagsMissing { record: 1 });
    assert_eq!(of(&[plain(3, 1), plain(9, 1), plain(23, 2)]), missing);
    assert_eq!(under(with(9, 1, text)), None);
}

#[test]
fn each_refusal_of_a_length() {
    assert_eq!(refusal(&[0; 11], b""), Some(Refusal::OddSheet));
    assert_eq!(refusal(&[0; 13], b""), Some(Refusal::OddSheet));
    let long = plain(3, 1).repeat(65_536);
    assert_eq!(refusal(&long, b""), Some(Refusal::LongSheet));
    assert_eq!(refusal(&long[RECORD_WORDS..], b""), None);
    let text = vec![0xFF; 16_777_217];
    assert_eq!(refusal(&[], &text), Some(Refusal::LongText));
    assert_eq!(refusal(&[], &text[1..]), None);
    // An odd sheet that is long, with a long text.
    let odd = vec![0; 65_536 * RECORD_WORDS + 1];
    assert_eq!(refusal(&odd, &text), Some(Refusal::OddSheet));
    assert_eq!(refusal(&long, &text), Some(Refusal::LongSheet));
}

/// One heading of depth 0, whose entry has six words.
#[test]
fn reports_of_each_length() {
    let heading = plain(2, 1);
    let entry = [10, 0, 0, 0, 1, 0];
    for length in 0..6 {
        let mut report = vec![BEFORE; length];
        let found = check(&heading, b"", &mut report);
        assert_eq!(found, Err(Refusal::ShortReport));
        assert!(report.iter().all(|&word| word == BEFORE));
    }
    for length in 6..9 {
        let mut report = vec![BEFORE; length];
        let entries = check(&heading, b"", &mut report).unwrap();
        assert_eq!((entries.len(), entries.words()), (1, &entry[..]));
        assert_eq!(report[..6], entry);
        assert!(report[6..].iter().all(|&word| word == BEFORE));
    }
}

/// Empty slices have pointers that are not null, and are taken.
#[test]
fn empty_slices() {
    let accepted = u64::from(Answer::Accepted { entries: 0 });
    assert_eq!(check_raw(&[], &[], &mut []), accepted);
    assert_eq!(
        check_raw(&Vec::new(), &Vec::new(), &mut Vec::new()),
        accepted
    );
    assert_eq!(check(&[], &[], &mut []).unwrap().count(), 0);
    assert!(check_to_vec(&[], &[]).unwrap().is_empty());
    assert!(Sheet::new(&[]).check().unwrap().is_empty());
    let short = u64::from(Answer::Refused(Refusal::ShortReport));
    assert_eq!(check_raw(&plain(2, 1), &[], &mut []), short);
}

#[test]
fn raw_answers() {
    let mut report = [BEFORE; 12];
    let two = [plain(2, 1), plain(2, 1)].concat();
    assert_eq!(check_raw(&two, b"", &mut report), 2);
    let unknown = [plain(3, 1), plain(0, 1)].concat();
    assert_eq!(check_raw(&unknown, b"", &mut report), 4 << 32 | 1);
}

/// A table whose second row has a cell too many, in an item.
#[test]
fn wrong_cell_count() {
    let rows = [
        Row::new([Cell::text("shot"), Cell::text("pass")]),
        Row::new([Cell::text("1"), Cell::text("2"), Cell::text("3")]).at(7, 9),
        Row::new([Cell::text("1"), Cell::new([Inline::soft_break().at(1, 2)])]),
    ];
    let table = Block::table(2, rows).at(0, 20);
    let list = Block::tight_list(Marker::DASH, [Item::new([table])]);
    let sheet = Sheet::new(&[Block::thematic_break(), list]);
    let report = sheet.check().unwrap();
    let found: Vec<_> = report
        .entries()
        .map(|entry| (entry.rule, entry.span, entry.path.to_vec()))
        .collect();
    assert_eq!(
        found,
        [
            (Rule::ROW_WIDTH, Some((7, 9)), vec![1, 0, 0, 1]),
            (Rule::BREAK_IN_CELL, Some((1, 2)), vec![1, 0, 0, 2, 1]),
        ]
    );
    assert_eq!(report.words().len(), 9 + 10);
    // The row and the cell that the paths lead to.
    let kind = |path: &[u32]| sheet.view().kind(sheet.record_at(path)?);
    let paths: Vec<&[u32]> = report.entries().map(|entry| entry.path).collect();
    assert_eq!(sheet.record_at(paths[0]), Some(9));
    assert_eq!(kind(paths[0]), Some(Kind::Row));
    assert_eq!(kind(paths[1]), Some(Kind::Cell));
    assert_eq!(kind(&[0]), Some(Kind::ThematicBreak));
    assert_eq!(kind(&[1]), Some(Kind::List));
    assert_eq!(kind(&[1, 0]), Some(Kind::Item));
    for nowhere in [&[][..], &[2], &[0, 0], &[1, 1], &[1, 0, 0, 3], &[u32::MAX]] {
        assert_eq!(sheet.record_at(nowhere), None);
    }
}

/// Tags, attributes and inlines are not counted in paths.
#[test]
fn paths_past_what_is_not_counted() {
    let tag = || HtmlTag::new("x", "x");
    let heading = Block::heading(0, []);
    let label = [Inline::text("x"), Inline::text("y")];
    let directive = Block::container_directive("x", [Attribute::new("a")], label, [heading]);
    let sheet = Sheet::new(&[Block::html_of_blocks(tag(), tag(), [directive])]);
    let report = sheet.check().unwrap();
    let entry = report.entries().next().unwrap();
    assert_eq!(
        (entry.rule, entry.path),
        (Rule::HEADING_DEPTH, &[0, 0, 0][..])
    );
    assert_eq!(sheet.record_at(entry.path), Some(sheet.records() - 1));
}

/// More words than the first report has.
#[test]
fn a_long_list() {
    let headings: Vec<_> = (0..5000)
        .map(|at| Block::heading(7, []).at(at, at + 1))
        .collect();
    let report = Sheet::new(&headings).check().unwrap();
    assert_eq!((report.len(), report.words().len()), (5000, 30_000));
    for (entry, at) in report.entries().zip(0..) {
        assert_eq!(
            (entry.rule, entry.span),
            (Rule::HEADING_DEPTH, Some((at, at + 1)))
        );
        assert_eq!(entry.path, [at]);
    }
}

/// A tree deeper than a sheet may be is refused, not cut.
#[test]
fn too_deep() {
    let nested = |depth| {
        let inner = Block::thematic_break();
        (1..depth).fold(inner, |inner, _| Block::block_quote([inner]))
    };
    assert!(Sheet::new(&[nested(64)]).check().unwrap().is_empty());
    let refusal = Sheet::new(&[nested(65)]).check();
    assert_eq!(refusal, Err(Refusal::BadLevel { record: 64 }));
}

/// Document 01's film of one heading of depth 0.
#[test]
fn films() {
    let sheet = Sheet::new(&[Block::heading(0, [])]);
    let mut expected = format!("{:>11}{:>11}\n{:>11}{:>11}", 1, 0, 2, 1);
    expected += &"          0".repeat(10);
    expected.push('\n');
    assert_eq!(film(sheet.words(), sheet.text()), expected.into_bytes());
    assert_eq!(film(&[], b"x\n"), b"          0          2\nx\n");
}
