//! The words of each kind of node.

use reedsander::{
    tree::{
        Attribute, Block, Cell, Delimiter, Destination, HtmlTag, Inline, Item, ListDelimiter,
        Marker, Row,
    },
    Sheet, RECORD_WORDS,
};

/// A record: kind, level, A, B, C, and its texts; None for words that are 0.
type Record<'a> = (u32, u32, [u32; 3], [Option<&'a str>; 2]);

/// The records of a sheet, without spans. Every sheet here is accepted.
fn records(sheet: &Sheet) -> Vec<Record<'_>> {
    assert!(sheet.check().is_ok(), "{sheet:?}");
    let text = std::str::from_utf8(sheet.text()).unwrap();
    let part = |start: u32, length: u32| match length {
        0 => None,
        _ => Some(&text[start as usize..(start + length) as usize]),
    };
    let record = |words: &[u32]| -> Record<'_> {
        let values = words[5..8].try_into().unwrap();
        let texts = [part(words[8], words[9]), part(words[10], words[11])];
        (words[0], words[1], values, texts)
    };
    sheet.words().chunks(RECORD_WORDS).map(record).collect()
}

/// The block's record and those under it.
fn of<R>(block: Block<'_>, read: impl FnOnce(Vec<Record<'_>>) -> R) -> R {
    read(records(&Sheet::new(&[block])))
}

/// The records of an inline in a paragraph.
fn of_inline(inline: Inline<'_>, expected: &[Record<'_>]) {
    of(Block::paragraph([inline]), |records| {
        assert_eq!(records[0], (1, 1, [0; 3], [None; 2]));
        assert_eq!(records[1..], *expected);
    });
}

fn x() -> Inline<'static> {
    Inline::text("x")
}

const X: (u32, [u32; 3], [Option<&str>; 2]) = (31, [0; 3], [Some("x"), None]);

/// The text `x` at a level.
fn x_at(level: u32) -> Record<'static> {
    (X.0, level, X.1, X.2)
}

/// A block that is one record of the kind, with these values and texts.
fn alone(block: Block<'_>, kind: u32, values: [u32; 3], texts: [Option<&str>; 2]) {
    of(block, |records| {
        assert_eq!(records, [(kind, 1, values, texts)]);
    });
}

#[test]
fn blocks_without_children() {
    alone(Block::thematic_break(), 3, [0; 3], [None; 2]);
    alone(Block::html_block(), 8, [0; 3], [None; 2]);
    alone(Block::math_block(), 13, [0; 3], [None; 2]);
    alone(Block::yaml("v"), 14, [0; 3], [Some("v"), None]);
    alone(Block::toml("v"), 14, [1, 0, 0], [Some("v"), None]);
    alone(Block::blank_line(), 17, [0; 3], [None; 2]);
    alone(Block::heading(255, []), 2, [255, 0, 0], [None; 2]);
    alone(Block::alert(None, []), 5, [0; 3], [None; 2]);
    alone(Block::alert(Some(""), []), 5, [1, 0, 0], [None; 2]);
    alone(Block::alert(Some("t"), []), 5, [1, 0, 0], [Some("t"), None]);
    alone(Block::table(9, []), 12, [9, 0, 0], [None; 2]);
}

#[test]
fn code_blocks() {
    let (fenced, indented) = (Block::fenced_code, Block::indented_code);
    let both = [Some("v"), Some("i")];
    alone(fenced(None, "v"), 7, [0; 3], [Some("v"), None]);
    alone(fenced(Some("i"), "v"), 7, [0, 1, 0], both);
    alone(fenced(Some(""), ""), 7, [0, 1, 0], [None; 2]);
    alone(indented(None, "v"), 7, [1, 0, 0], [Some("v"), None]);
    alone(indented(Some("i"), "v"), 7, [1, 1, 0], both);
}

#[test]
fn definitions() {
    let both = [Some("i"), Some("d")];
    let of = |destination| Block::definition("i", destination);
    alone(of(Destination::Bare("d")), 10, [0; 3], both);
    alone(of(Destination::Angle("d")), 10, [1, 0, 0], both);
    alone(
        of(Destination::Omitted("")),
        10,
        [2, 0, 0],
        [Some("i"), None],
    );
    alone(of(Destination::Omitted("d")), 10, [2, 0, 0], both);
}

#[test]
fn blocks_with_children() {
    let rule = || Block::thematic_break();
    let under = |level| (3, level, [0; 3], [None; 2]);
    for (block, kind, first) in [
        (Block::block_quote([rule()]), 4, None),
        (Block::footnote_definition("i", [rule()]), 11, Some("i")),
    ] {
        of(block, |records| {
            assert_eq!(records, [(kind, 1, [0; 3], [first, None]), under(2)]);
        });
    }
    of(Block::alert(Some("t"), [rule()]), |records| {
        assert_eq!(records, [(5, 1, [1, 0, 0], [Some("t"), None]), under(2)]);
    });
    of(Block::heading(2, [x()]), |records| {
        assert_eq!(records, [(2, 1, [2, 0, 0], [None; 2]), x_at(2)]);
    });
}

#[test]
fn lists() {
    use ListDelimiter::{Asterisk, Dash, Paren, Period, Plus};
    for (marker, a, b) in [
        (Marker::DASH, 0, 0),
        (Marker::ASTERISK, 0, 1),
        (Marker::PLUS, 0, 2),
        (Marker::PERIOD, 1, 3),
        (Marker::PAREN, 1, 4),
    ] {
        of(Block::tight_list(marker, []), |records| {
            assert_eq!(records, [(6, 1, [a, b, 1], [None; 2])]);
        });
        of(Block::loose_list(marker, []), |records| {
            assert_eq!(records, [(6, 1, [a, b, 0], [None; 2])]);
        });
    }
    for (delimiter, b) in [(Dash, 0), (Asterisk, 1), (Plus, 2), (Period, 3), (Paren, 4)] {
        let marker = Marker {
            ordered: true,
            delimiter,
        };
        of(Block::list(marker, false, []), |records| {
            assert_eq!(records, [(6, 1, [1, b, 0], [None; 2])]);
        });
    }
    let items = [
        Item::new([Block::thematic_break()]),
        Item::new([]).checked(false),
        Item::new([]).checked(true),
        Item::new([]).number(0),
        Item::new([]).checked(true).number(u32::MAX),
    ];
    of(Block::tight_list(Marker::PERIOD, items), |records| {
        let item = |values| (20, 2, values, [None; 2]);
        assert_eq!(records[1], item([0; 3]));
        assert_eq!(records[2], (3, 3, [0; 3], [None; 2]));
        let others = [[1, 0, 0], [2, 0, 0], [0, 1, 0], [2, 1, u32::MAX]];
        assert_eq!(records[3..], others.map(item));
    });
}

#[test]
fn tables() {
    let rows = [Row::new([Cell::text("x"), Cell::new([])]), Row::new([])];
    of(Block::table(2, rows), |records| {
        let plain = |kind, level| (kind, level, [0; 3], [None; 2]);
        assert_eq!(
            records,
            [
                (12, 1, [2, 0, 0], [None; 2]),
                plain(21, 2),
                plain(22, 3),
                x_at(4),
                plain(22, 3),
                plain(21, 2),
            ]
        );
    });
}

#[test]
fn containers_of_html() {
    let tag = |name| HtmlTag::new(name, "raw");
    let tags = [
        (23, 2, [0; 3], [Some("o"), Some("raw")]),
        (23, 2, [0; 3], [Some("c"), Some("raw")]),
    ];
    let blocks = Block::html_of_blocks(tag("o"), tag("c"), [Block::blank_line()]);
    of(blocks, |records| {
        assert_eq!(records[0], (9, 1, [0; 3], [None; 2]));
        assert_eq!(records[1..3], tags);
        assert_eq!(records[3..], [(17, 2, [0; 3], [None; 2])]);
    });
    of(
        Block::html_of_inlines(tag("o"), tag("c"), [x()]),
        |records| {
            assert_eq!(records[0], (9, 1, [1, 0, 0], [None; 2]));
            assert_eq!(records[1..3], tags);
            assert_eq!(records[3..], [x_at(2)]);
        },
    );
}

#[test]
fn directives() {
    let attributes = || [Attribute::new("a"), Attribute::new("")];
    let under = |level| {
        [
            (24, level, [0; 3], [Some("a"), None]),
            (24, level, [0; 3], [None; 2]),
            x_at(level),
        ]
    };
    of(Block::leaf_directive("n", attributes(), [x()]), |records| {
        assert_eq!(records[0], (15, 1, [0; 3], [Some("n"), None]));
        assert_eq!(records[1..], under(2));
    });
    let blocks = [Block::thematic_break()];
    let directive = Block::container_directive("n", attributes(), [x()], blocks);
    of(directive, |records| {
        assert_eq!(records[0], (16, 1, [0; 3], [Some("n"), None]));
        assert_eq!(records[1..4], under(2));
        assert_eq!(records[4..], [(3, 2, [0; 3], [None; 2])]);
    });
    let directive = Inline::text_directive("n", attributes(), [x()]);
    of(Block::paragraph([directive]), |records| {
        assert_eq!(records[1], (52, 2, [0; 3], [Some("n"), None]));
        assert_eq!(records[2..], under(3));
    });
}

#[test]
fn inlines_without_children() {
    for (inline, kind, values, texts) in [
        (Inline::text("v"), 31, [0; 3], [Some("v"), None]),
        (Inline::escape('*'), 32, [42, 0, 0], [None; 2]),
        (Inline::escape(char::MAX), 32, [0x10_FFFF, 0, 0], [None; 2]),
        (Inline::character_reference(), 33, [0; 3], [None; 2]),
        (Inline::shortcode(), 38, [0; 3], [None; 2]),
        (Inline::code("v"), 39, [0; 3], [Some("v"), None]),
        (Inline::autolink("v"), 41, [0; 3], [Some("v"), None]),
        (Inline::html("v"), 45, [0; 3], [Some("v"), None]),
        (Inline::soft_break(), 46, [0; 3], [None; 2]),
        (Inline::backslash_break(), 47, [0; 3], [None; 2]),
        (Inline::spaces_break(), 47, [1, 0, 0], [None; 2]),
        (
            Inline::dollar_math(255, "v"),
            48,
            [0, 255, 0],
            [Some("v"), None],
        ),
        (Inline::code_math("v"), 48, [1, 0, 0], [Some("v"), None]),
        (
            Inline::footnote_reference("i", "l"),
            49,
            [0; 3],
            [Some("i"), Some("l")],
        ),
        (
            Inline::wikilink("t", "l"),
            51,
            [0; 3],
            [Some("t"), Some("l")],
        ),
        (Inline::tag("n"), 53, [0; 3], [Some("n"), None]),
    ] {
        of_inline(inline, &[(kind, 2, values, texts)]);
    }
}

/// An inline of the kind, with this A and these texts, around the text `x`.
fn around_x(inline: Inline<'_>, kind: u32, a: u32, texts: [Option<&str>; 2]) {
    of_inline(inline, &[(kind, 2, [a, 0, 0], texts), x_at(3)]);
}

#[test]
fn inlines_with_children() {
    use Delimiter::{Asterisk, Underscore};
    around_x(Inline::emphasis(Asterisk, [x()]), 34, 0, [None; 2]);
    around_x(Inline::emphasis(Underscore, [x()]), 34, 1, [None; 2]);
    around_x(Inline::strong(Asterisk, [x()]), 35, 0, [None; 2]);
    around_x(Inline::strong(Underscore, [x()]), 35, 1, [None; 2]);
    around_x(Inline::delete([x()]), 36, 0, [None; 2]);
    around_x(Inline::mark([x()]), 37, 0, [None; 2]);
    around_x(Inline::inline_footnote([x()]), 50, 0, [None; 2]);
}

#[test]
fn links_and_images() {
    let link = |destination| Inline::link(destination, [x()]);
    let image = |destination| Inline::image(destination, [x()]);
    let to = [Some("d"), None];
    around_x(link(Destination::Bare("d")), 40, 0, to);
    around_x(link(Destination::Angle("d")), 40, 1, to);
    around_x(link(Destination::Omitted("")), 40, 2, [None; 2]);
    around_x(link(Destination::Omitted("d")), 40, 2, to);
    around_x(image(Destination::Bare("d")), 42, 0, to);
    around_x(image(Destination::Angle("d")), 42, 1, to);
    around_x(image(Destination::Omitted("")), 42, 2, [None; 2]);
    around_x(image(Destination::Omitted("d")), 42, 2, to);
    let by = [Some("i"), Some("l")];
    around_x(Inline::link_reference("i", "l", [x()]), 43, 0, by);
    around_x(Inline::image_reference("i", "l", [x()]), 44, 0, by);
}

/// Every node but an attribute has the span that it is given.
#[test]
fn spans() {
    let span = |sheet: &Sheet, record: usize| -> Vec<u32> {
        sheet.words()[record * RECORD_WORDS..][2..5].to_vec()
    };
    let cell = Cell::new([x().at(7, 8)]).at(5, 6);
    let table = Block::table(1, [Row::new([cell]).at(3, 4)]).at(1, 2);
    let item = Item::new([table]).at(u32::MAX, 0);
    let tag = || HtmlTag::new("t", "r");
    let sheet = Sheet::new(&[
        Block::tight_list(Marker::DASH, [item]),
        Block::html_of_blocks(tag().at(9, 10), tag(), []),
    ]);
    assert!(sheet.check().is_ok());
    assert_eq!(sheet.records(), 9);
    let expected = [
        [0, 0, 0],
        [1, u32::MAX, 0],
        [1, 1, 2],
        [1, 3, 4],
        [1, 5, 6],
        [1, 7, 8],
        [0, 0, 0],
        [1, 9, 10],
        [0, 0, 0],
    ];
    for (record, expected) in expected.into_iter().enumerate() {
        assert_eq!(span(&sheet, record), expected);
    }
}

/// A text stands once, however often the tree has it; an empty one nowhere.
#[test]
fn pooled_texts() {
    let texts = ["reel", "", "é", "reel", "ree"].map(Inline::text);
    let sheet = Sheet::new(&[Block::paragraph(texts)]);
    assert_eq!(sheet.text(), "reeléree".as_bytes());
    let parts: Vec<&[u32]> = sheet
        .words()
        .chunks(RECORD_WORDS)
        .map(|record| &record[8..])
        .collect();
    let expected = [[0, 0], [0, 4], [0, 0], [4, 2], [0, 4], [6, 3]];
    for (part, [start, length]) in parts.into_iter().zip(expected) {
        assert_eq!(part, [start, length, 0, 0]);
    }
}
