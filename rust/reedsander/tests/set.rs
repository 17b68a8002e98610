//! The setting machine called through the crate: marks, stops, refusals, and
//! the checker's list beside it.

mod records;

use reedsander::{
    set, set_raw,
    tree::{
        Block, Cell, Delimiter, Destination, HtmlTag, Inline, Item, ListDelimiter, Marker, Row,
    },
    Refusal, Setting, Sheet, Stop, RECORD_WORDS,
};

use records::{plain, with, Record};

/// What the marks are before the call.
const BEFORE: u32 = 0xA5A5_5A5A;

fn words(value: &str) -> Block<'_> {
    Block::paragraph([Inline::text(value)])
}

/// A table of one row of so many empty cells.
fn table(columns: u32, cells: usize) -> Block<'static> {
    let cells = (0..cells).map(|_| Cell::new([]));
    Block::table(columns, [Row::new(cells)])
}

fn bullets(items: impl IntoIterator<Item = Item<'static>>) -> Block<'static> {
    Block::tight_list(Marker::DASH, items)
}

fn item() -> Item<'static> {
    Item::new([words("x")])
}

/// A page that stops so, at which record, and how many records it opens.
fn stopping() -> Vec<(Stop, u32, usize, Vec<Block<'static>>)> {
    let numbered = |number| Item::new([words("x")]).number(number);
    let ordered = |item| Block::tight_list(Marker::PAREN, [item]);
    let link = || Inline::link(Destination::Bare("x"), [Inline::autolink("x")]);
    let breaks = [Inline::soft_break(), Inline::spaces_break()];
    let one_line = Block::leaf_directive("x", [], [Inline::backslash_break()]);
    vec![
        (Stop::CellTooMany, 3, 3, vec![table(1, 2)]),
        (Stop::CellTooFew, 1, 3, vec![table(2, 1)]),
        (Stop::EmptyTable, 0, 1, vec![Block::table(1, [])]),
        (Stop::BreakInLine, 1, 1, vec![one_line]),
        (Stop::LinkInLink, 2, 2, vec![Block::paragraph([link()])]),
        (Stop::HeadingDepth, 0, 0, vec![Block::heading(7, [])]),
        (
            Stop::ItemNumber,
            1,
            1,
            vec![ordered(numbered(1_000_000_000))],
        ),
        (Stop::BulletNumber, 1, 1, vec![bullets([numbered(1)])]),
        (Stop::EmptyList, 0, 1, vec![bullets([])]),
        (Stop::EmptyContent, 0, 2, vec![words("")]),
        (Stop::BreakAfterBreak, 2, 2, vec![Block::paragraph(breaks)]),
        (
            Stop::InnerFrontmatter,
            1,
            1,
            vec![Block::block_quote([Block::yaml("x")])],
        ),
        (Stop::LineEnding, 1, 1, vec![words("x\r")]),
        (
            Stop::AdjacentLists,
            5,
            5,
            vec![bullets([item()]), Block::blank_line(), bullets([item()])],
        ),
    ]
}

/// Each stop, with the marks that stay and the rule in the checker's list.
#[test]
fn each_stop() {
    let all = stopping();
    assert!(all.iter().map(|stop| &stop.0).eq(Stop::ALL));
    for (stop, record, opened, blocks) in all {
        let sheet = Sheet::new(&blocks);
        let mut marks = vec![BEFORE; sheet.records() + 2];
        let setting = sheet.set_into(&mut marks);
        assert_eq!(setting, Ok(Setting::Stopped { stop, record }));
        let (written, rest) = marks.split_at(opened);
        assert!(written.iter().all(|&mark| mark != BEFORE), "{stop}");
        assert!(rest.iter().all(|&mark| mark == BEFORE), "{stop}");
        let path = sheet.block_path(record as usize).unwrap();
        let report = sheet.check().unwrap();
        let mut beside = report
            .iter()
            .filter(|entry| stop.rules().contains(&entry.rule));
        assert!(beside.any(|entry| entry.path.starts_with(&path)), "{stop}");
    }
}

/// The record count, and a mark for every record.
#[test]
fn the_end() {
    let emphasis = Inline::emphasis(Delimiter::Asterisk, [Inline::text("x")]);
    let list = Marker {
        ordered: true,
        delimiter: ListDelimiter::Dash,
    };
    let items = [
        Item::new([]),
        Item::new([]).number(0),
        Item::new([table(2, 2)]),
        Item::new([]).number(999_999_999),
        Item::new([]),
    ];
    let sheet = Sheet::new(&[
        Block::heading(6, [emphasis]),
        Block::tight_list(list, items),
        bullets([Item::new([])]),
    ]);
    let heading = [6, 0, 0];
    let items = [0, 1, 2, 3, 0, 0, 1, 2, 4, 5];
    let marks = [&heading[..], &items, &[0, 0]].concat();
    let ended = Setting::Ended { records: 15 };
    assert_eq!(sheet.set(), Ok((ended, marks.clone())));
    // With more words than that, which stay.
    let mut long = [BEFORE; 18];
    assert_eq!(sheet.set_into(&mut long), Ok(ended));
    assert_eq!(long[..15], marks);
    assert_eq!(long[15..], [BEFORE; 3]);
}

/// The refusal, which leaves the marks as they were.
fn refusal(sheet: &[u32], text: &[u8], marks: usize) -> Option<Refusal> {
    let mut marks = vec![BEFORE; marks];
    let refusal = set(sheet, text, &mut marks).err()?;
    assert!(marks.iter().all(|&mark| mark == BEFORE));
    Some(refusal)
}

#[test]
fn each_refusal_of_a_record() {
    let under = |record: Record| refusal(&[plain(1, 1), record].concat(), b"a\xFF", 2);
    let text = plain(31, 2);
    let record = 1;
    for (second, wanted) in [
        (plain(30, 2), Refusal::UnknownKind { record }),
        (plain(31, 3), Refusal::BadLevel { record }),
        (plain(20, 2), Refusal::Misplaced { record }),
        (with(5, 1, text), Refusal::BadField { record }),
        (with(9, 3, text), Refusal::TextOutside { record }),
        (with(9, 2, text), Refusal::NotUtf8 { record }),
        (plain(9, 1), Refusal::TagsMissing { record }),
    ] {
        assert_eq!(under(second), Some(wanted));
    }
    assert_eq!(under(with(9, 1, text)), None);
}

#[test]
fn each_refusal_of_a_length() {
    assert_eq!(refusal(&[0; 11], b"", 9), Some(Refusal::OddSheet));
    let long = plain(3, 1).repeat(65_536);
    assert_eq!(refusal(&long, b"", 65_536), Some(Refusal::LongSheet));
    assert_eq!(refusal(&long[RECORD_WORDS..], b"", 65_535), None);
    let text = vec![0xFF; 16_777_217];
    assert_eq!(refusal(&[], &text, 3), Some(Refusal::LongText));
    assert_eq!(refusal(&[], &text[1..], 3), None);
    assert_eq!(refusal(&long, &text, 3), Some(Refusal::LongSheet));
}

/// Fewer marks than records, and every other refusal before that.
#[test]
fn short_marks() {
    let two = [plain(3, 1), plain(3, 1)].concat();
    for marks in 0..2 {
        assert_eq!(refusal(&two, b"", marks), Some(Refusal::ShortMarks));
    }
    assert_eq!(refusal(&two, b"", 2), None);
    let unknown = Some(Refusal::UnknownKind { record: 0 });
    assert_eq!(refusal(&plain(18, 1), b"", 0), unknown);
    let missing = Some(Refusal::TagsMissing { record: 0 });
    assert_eq!(refusal(&plain(9, 1), b"", 0), missing);
}

/// Empty slices have pointers that are not null, and are taken.
#[test]
fn empty_slices() {
    assert_eq!(set_raw(&[], &[], &mut []), 0);
    assert_eq!(set_raw(&Vec::new(), &Vec::new(), &mut Vec::new()), 0);
    let ended = Setting::Ended { records: 0 };
    assert_eq!(Sheet::new(&[]).set(), Ok((ended, vec![])));
    assert_eq!(set_raw(&plain(3, 1), &[], &mut []), 268 << 32);
    assert_eq!(set(&plain(3, 1), &[], &mut []), Err(Refusal::ShortMarks));
}

/// Tags, attributes, rows, cells and inlines have the path of their block.
#[test]
fn block_paths() {
    let tag = || HtmlTag::new("x", "x");
    let quote = Block::block_quote([Block::thematic_break(), table(1, 1)]);
    let container = Block::html_of_blocks(tag(), tag(), [words("x"), bullets([item()])]);
    let sheet = Sheet::new(&[quote, container]);
    let paths: Vec<Vec<u32>> = (0..sheet.records())
        .map(|record| sheet.block_path(record).unwrap())
        .collect();
    let expected: [&[u32]; 14] = [
        &[0],
        &[0, 0],
        &[0, 1],
        &[0, 1],
        &[0, 1],
        &[1],
        &[1],
        &[1],
        &[1, 0],
        &[1, 0],
        &[1, 1],
        &[1, 1],
        &[1, 1, 0, 0],
        &[1, 1, 0, 0],
    ];
    assert_eq!(paths, expected);
    for (record, path) in paths.iter().enumerate() {
        // The path of a block leads to it.
        if matches!(sheet.words()[record * RECORD_WORDS], 1..=17) {
            assert_eq!(sheet.record_at(path), Some(record));
        }
    }
    assert_eq!(sheet.block_path(sheet.records()), None);
    assert_eq!(Sheet::default().block_path(0), None);
}
