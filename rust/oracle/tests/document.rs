//! Sheets written by hand, with the tree and the report words of each.

use oracle::{ast::*, document, list, refusal, span::Span, RECORD_WORDS};

type Record = [u32; RECORD_WORDS];

/// A record of a kind and a level; all else is 0.
fn plain(kind: u32, level: u32) -> Record {
    let mut record = [0; RECORD_WORDS];
    record[0] = kind;
    record[1] = level;
    record
}

/// The record with A, B and C.
fn with([a, b, c]: [u32; 3], mut record: Record) -> Record {
    record[5..8].copy_from_slice(&[a, b, c]);
    record
}

/// The record with its span.
fn at(start: u32, end: u32, mut record: Record) -> Record {
    record[2..5].copy_from_slice(&[1, start, end]);
    record
}

/// The record with the start and length of its first text.
fn first(start: u32, length: u32, mut record: Record) -> Record {
    record[8..10].copy_from_slice(&[start, length]);
    record
}

/// The record with the start and length of its second text.
fn second(start: u32, length: u32, mut record: Record) -> Record {
    record[10..12].copy_from_slice(&[start, length]);
    record
}

/// The text of every sheet here: `a` is at 0, `é` at 1, `b` at 3.
const TEXT: &[u8] = "aéb".as_bytes();

/// The words of the report, for an accepted sheet.
fn report(records: &[Record]) -> Vec<u32> {
    let sheet = records.concat();
    assert_eq!(refusal(&sheet, TEXT), (0, 0));
    list(&sheet, TEXT)
}

/// The blocks of the tree, for an accepted sheet.
fn blocks(records: &[Record]) -> Vec<Block> {
    let sheet = records.concat();
    assert_eq!(refusal(&sheet, TEXT), (0, 0));
    document(&sheet, TEXT).children
}

/// The inlines of a paragraph that holds these records.
fn inlines(records: &[Record]) -> Vec<Inline> {
    let blocks = blocks(&[&[plain(1, 1)][..], records].concat());
    let [Block::Paragraph(paragraph)] = &blocks[..] else {
        panic!("{blocks:?}");
    };
    paragraph.children.clone()
}

fn meta() -> NodeMeta {
    NodeMeta::default()
}

fn text(value: &str) -> Inline {
    Text::new(value).into()
}

#[test]
fn no_records() {
    assert_eq!(report(&[]), []);
    assert_eq!(blocks(&[]), []);
}

/// Document 01's heading of depth 0, without a span, with one of zeros and
/// with one whose start is past its end.
#[test]
fn entry_of_a_block() {
    let heading = plain(2, 1);
    assert_eq!(report(&[heading]), [10, 0, 0, 0, 1, 0]);
    assert_eq!(report(&[at(0, 0, heading)]), [10, 1, 0, 0, 1, 0]);
    let far = at(u32::MAX, 5, heading);
    assert_eq!(
        report(&[plain(3, 1), far]),
        [10, 1, u32::MAX, 5, 1, 1],
        "the second block"
    );
}

#[test]
fn entries_of_items() {
    let item = with([0, 1, 7], plain(20, 2));
    assert_eq!(
        report(&[
            plain(3, 1),
            with([0, 0, 1], plain(6, 1)),
            at(4, 6, item),
            plain(20, 2),
            with([1, 0, 0], plain(20, 2)),
        ]),
        [49, 1, 4, 6, 2, 1, 0, 14, 0, 0, 0, 2, 1, 2]
    );
}

/// A row's path has two indices and a cell's three; an inline's entry has
/// the path of its cell.
#[test]
fn entries_of_rows_and_cells() {
    assert_eq!(
        report(&[
            with([1, 0, 0], plain(12, 1)),
            plain(21, 2),
            plain(22, 3),
            at(3, 4, plain(21, 2)),
            plain(22, 3),
            plain(22, 3),
            at(8, 9, plain(46, 4)),
        ]),
        [19, 1, 3, 4, 2, 0, 1, 20, 1, 8, 9, 3, 0, 1, 1]
    );
}

/// A blank line has its own path, in an item and in a footnote definition.
#[test]
fn entries_of_blank_lines() {
    let blank = |level| at(6, 7, plain(17, level));
    assert_eq!(
        report(&[
            plain(6, 1),
            plain(20, 2),
            plain(3, 3),
            plain(20, 2),
            plain(3, 3),
            blank(3),
        ]),
        [53, 1, 6, 7, 3, 0, 1, 1]
    );
    assert_eq!(
        report(&[first(0, 1, plain(11, 1)), plain(3, 2), blank(2)]),
        [4, 1, 6, 7, 2, 0, 1]
    );
}

/// A tag's entry has its span and the container's path; tags are not counted
/// in the paths of the blocks after them.
#[test]
fn entries_of_tags() {
    let container = at(1, 2, plain(9, 1));
    let named = first(0, 1, plain(23, 2));
    let full = second(0, 1, named);
    assert_eq!(
        report(&[
            container,
            at(3, 4, named),
            at(5, 6, second(3, 1, plain(23, 2))),
            plain(2, 2),
        ]),
        [
            [6, 1, 5, 6, 1, 0].as_slice(),
            &[7, 1, 1, 2, 1, 0],
            &[8, 1, 3, 4, 1, 0],
            &[10, 0, 0, 0, 2, 0, 0],
        ]
        .concat()
    );
    assert_eq!(report(&[container, full, full]), []);
}

/// An attribute's entry has no span. Attributes and inlines are not counted
/// in the paths of a directive's blocks.
#[test]
fn entries_of_attributes() {
    assert_eq!(
        report(&[
            at(1, 2, first(0, 1, plain(16, 1))),
            first(0, 1, plain(24, 2)),
            plain(24, 2),
            at(3, 4, plain(46, 2)),
            at(5, 6, plain(2, 2)),
        ]),
        [
            [55, 0, 0, 0, 1, 0].as_slice(),
            &[23, 1, 3, 4, 1, 0],
            &[10, 1, 5, 6, 2, 0, 0],
        ]
        .concat()
    );
    // In a text directive, whose own entry has its span.
    assert_eq!(
        report(&[plain(1, 1), at(1, 2, plain(52, 2)), plain(24, 3)]),
        [54, 1, 1, 2, 1, 0, 55, 0, 0, 0, 1, 0]
    );
}

/// Inlines at any depth have the path of their block.
#[test]
fn entries_of_inlines() {
    let link = first(0, 1, plain(40, 3));
    assert_eq!(
        report(&[
            plain(4, 1),
            plain(1, 2),
            link,
            plain(37, 4),
            at(7, 8, plain(41, 5)),
            at(2, 3, plain(47, 3)),
        ]),
        [30, 1, 2, 3, 2, 0, 0, 42, 1, 7, 8, 2, 0, 0]
    );
}

/// A tag's entry has the tag's span and the path of its paragraph.
#[test]
fn entry_of_a_tag() {
    assert_eq!(
        report(&[plain(3, 1), plain(1, 1), at(7, 8, plain(53, 2))]),
        [56, 1, 7, 8, 1, 1]
    );
}

/// An entry of a dropped message is left out: here that a block in a tight
/// item is read as part of the one before it.
#[test]
fn dropped_entries() {
    let tight = with([0, 0, 1], plain(6, 1));
    let words = [tight, plain(20, 2), plain(4, 3), plain(4, 3)];
    assert_eq!(report(&words), []);
    let document = oracle::document(&words.concat(), b"");
    assert_eq!(oracle::validate(&document).len(), 1);
}

#[test]
fn spans() {
    let expected: Vec<Block> = [None, Some(Span::new(0, 0)), Some(Span::new(9, 4))]
        .map(|span| {
            let meta = NodeMeta::new(span);
            BlankLine { meta }.into()
        })
        .into();
    let blank = plain(17, 1);
    assert_eq!(blocks(&[blank, at(0, 0, blank), at(9, 4, blank)]), expected);
}

/// Each record is under the nearest earlier one that is one level up.
#[test]
fn parents() {
    let quote = |children| -> Block {
        BlockQuote {
            meta: meta(),
            children,
        }
        .into()
    };
    let levels = [1, 2, 3, 2, 3, 1, 2];
    assert_eq!(
        blocks(&levels.map(|level| plain(4, level))),
        [
            quote(vec![quote(vec![quote(vec![])]), quote(vec![quote(vec![])])]),
            quote(vec![quote(vec![])]),
        ]
    );
}

#[test]
fn paragraphs_headings_breaks() {
    assert_eq!(
        blocks(&[
            plain(1, 1),
            first(1, 2, plain(31, 2)),
            with([255, 0, 0], plain(2, 1)),
            first(0, 4, plain(31, 2)),
            plain(3, 1),
            plain(8, 1),
            plain(13, 1),
        ]),
        [
            Paragraph::new([text("é")]).into(),
            Heading::new(255, [text("aéb")]).into(),
            Block::ThematicBreak(ThematicBreak {
                meta: meta(),
                marker: ThematicBreakMarker::Dash,
            }),
            Block::HtmlBlock(HtmlBlock {
                meta: meta(),
                value: String::new(),
            }),
            Block::MathBlock(MathBlock {
                meta: meta(),
                value: String::new(),
            }),
        ]
    );
}

#[test]
fn alerts() {
    let alert = |title: Option<&str>, children| {
        Block::Alert(Alert {
            meta: meta(),
            kind: AlertKind::Note,
            title: title.map(Into::into),
            children,
        })
    };
    assert_eq!(
        blocks(&[
            plain(5, 1),
            plain(17, 2),
            with([1, 0, 0], plain(5, 1)),
            first(0, 3, with([1, 0, 0], plain(5, 1))),
        ]),
        [
            alert(None, vec![BlankLine::new().into()]),
            alert(Some(""), vec![]),
            alert(Some("aé"), vec![]),
        ]
    );
}

#[test]
fn lists_and_items() {
    use ListDelimiter::{Asterisk, Dash, Paren, Period, Plus};
    for (number, delimiter) in [Dash, Asterisk, Plus, Period, Paren]
        .into_iter()
        .enumerate()
    {
        for (ordered, tight) in [(false, false), (true, false), (false, true)] {
            let words = [u32::from(ordered), number as u32, u32::from(tight)];
            let mut expected = List::new([]);
            expected.ordered = ordered;
            expected.delimiter = delimiter;
            expected.tight = tight;
            assert_eq!(blocks(&[with(words, plain(6, 1))]), [Block::List(expected)]);
        }
    }
    let item = |checked, number| {
        let mut item = ListItem::new([BlankLine::new()]);
        item.checked = checked;
        item.number = number;
        item
    };
    let records = [[0, 0, 0], [1, 1, 0], [2, 1, u32::MAX]]
        .map(|words| [with(words, plain(20, 2)), plain(17, 3)]);
    assert_eq!(
        blocks(&[&[with([0, 0, 1], plain(6, 1))], records.as_flattened()].concat()),
        [Block::List(List::new([
            item(None, None),
            item(Some(false), Some(0)),
            item(Some(true), Some(u32::MAX.into())),
        ]))]
    );
}

#[test]
fn code_blocks_and_frontmatter() {
    let code = |kind, info: Option<&str>| {
        Block::CodeBlock(CodeBlock {
            meta: meta(),
            kind,
            info: info.map(Into::into),
            value: "a".into(),
        })
    };
    let frontmatter = |kind| {
        Block::Frontmatter(Frontmatter {
            meta: meta(),
            kind,
            value: "b".into(),
        })
    };
    let fenced = CodeBlockKind::Fenced {
        marker: FenceMarker::Backtick,
        length: 3,
    };
    let block = first(0, 1, plain(7, 1));
    let matter = first(3, 1, plain(14, 1));
    assert_eq!(
        blocks(&[
            block,
            with([1, 1, 0], block),
            second(3, 1, with([0, 1, 0], block)),
            matter,
            with([1, 0, 0], matter),
        ]),
        [
            code(fenced, None),
            code(CodeBlockKind::Indented, Some("")),
            code(fenced, Some("b")),
            frontmatter(FrontmatterKind::Yaml),
            frontmatter(FrontmatterKind::Toml),
        ]
    );
}

#[test]
fn html_containers() {
    let tag = |name: &str, raw: &str| HtmlTag {
        meta: meta(),
        name: name.into(),
        raw: raw.into(),
    };
    let container = |content| {
        Block::HtmlContainer(HtmlContainer {
            meta: meta(),
            opening: tag("a", "é"),
            content,
            closing: tag("b", ""),
        })
    };
    let opening = second(1, 2, first(0, 1, plain(23, 2)));
    let closing = first(3, 1, plain(23, 2));
    assert_eq!(
        blocks(&[
            plain(9, 1),
            opening,
            closing,
            plain(17, 2),
            with([1, 0, 0], plain(9, 1)),
            opening,
            closing,
            plain(31, 2),
        ]),
        [
            container(HtmlContainerContent::Blocks(vec![BlankLine::new().into()])),
            container(HtmlContainerContent::Inlines(vec![text("")])),
        ]
    );
}

#[test]
fn definitions() {
    use LinkDestinationKind::{Angle, Bare, Omitted};
    for (number, destination_kind) in [Bare, Angle, Omitted].into_iter().enumerate() {
        let record = second(3, 1, first(1, 2, plain(10, 1)));
        assert_eq!(
            blocks(&[with([number as u32, 0, 0], record)]),
            [Block::Definition(Definition {
                meta: meta(),
                label: String::new(),
                identifier: "é".into(),
                destination: "b".into(),
                destination_kind,
                title: None,
            })]
        );
    }
    assert_eq!(
        blocks(&[first(0, 1, plain(11, 1)), plain(17, 2)]),
        [Block::FootnoteDefinition(FootnoteDefinition {
            meta: meta(),
            label: String::new(),
            identifier: "a".into(),
            children: vec![BlankLine::new().into()],
        })]
    );
}

#[test]
fn tables() {
    let row = |cells: Vec<Vec<Inline>>| TableRow {
        meta: meta(),
        cells: cells.into_iter().map(TableCell::new).collect(),
    };
    assert_eq!(
        blocks(&[
            with([3, 0, 0], plain(12, 1)),
            plain(21, 2),
            plain(22, 3),
            first(0, 1, plain(31, 4)),
            plain(22, 3),
            plain(21, 2),
        ]),
        [Block::Table(Table {
            meta: meta(),
            alignments: vec![TableAlignment::None; 3],
            rows: vec![row(vec![vec![text("a")], vec![]]), row(vec![])],
        })]
    );
}

/// More alignments than cells can be are judged as what they are.
#[test]
fn tables_of_many_alignments() {
    for alignments in [2, 65_535, 65_536, u32::MAX] {
        let table = with([alignments, 0, 0], plain(12, 1));
        assert_eq!(
            report(&[table, plain(21, 2), plain(22, 3)]),
            [18, 0, 0, 0, 1, 0]
        );
    }
}

/// Two attributes and a label, at a level.
fn inside(level: u32) -> [Record; 3] {
    let attribute = plain(24, level);
    [first(0, 1, attribute), attribute, plain(46, level)]
}

fn attributes() -> Vec<DirectiveAttribute> {
    let names = ["a", ""].map(String::from);
    names
        .map(|name| DirectiveAttribute { name, value: None })
        .into()
}

fn label() -> Vec<Inline> {
    vec![SoftBreak { meta: meta() }.into()]
}

#[test]
fn block_directives() {
    let mut leaf = LeafDirective::new("b");
    leaf.attributes = attributes();
    leaf.label = label();
    let mut container = ContainerDirective::new("b", vec![BlankLine::new().into()]);
    container.attributes = attributes();
    container.label = label();
    let records = [
        &[first(3, 1, plain(15, 1))][..],
        &inside(2),
        &[first(3, 1, plain(16, 1))],
        &inside(2),
        &[plain(17, 2)],
    ];
    assert_eq!(
        blocks(&records.concat()),
        [Block::from(leaf), container.into()]
    );
}

#[test]
fn text_directives() {
    let records = [&[first(3, 1, plain(52, 2))][..], &inside(3)];
    assert_eq!(
        inlines(&records.concat()),
        [Inline::TextDirective(TextDirective {
            meta: meta(),
            name: "b".into(),
            label: label(),
            attributes: attributes(),
        })]
    );
}

#[test]
fn inlines_of_one_word_or_text() {
    let named = |kind| first(1, 2, plain(kind, 2));
    let autolink = Autolink::new(AutolinkForm::Angle, "é");
    assert_eq!(
        inlines(&[
            named(31),
            with([0x10_FFFF, 0, 0], plain(32, 2)),
            plain(33, 2),
            plain(38, 2),
            named(39),
            named(41),
            named(45),
            plain(46, 2),
            named(53),
        ]),
        [
            text("é"),
            Inline::Escape(Escape {
                meta: meta(),
                value: '\u{10FFFF}',
            }),
            CharacterReference::new("").into(),
            Inline::Shortcode(Shortcode {
                meta: meta(),
                name: String::new(),
            }),
            CodeInline::new("é").into(),
            autolink.into(),
            Inline::Html(HtmlInline {
                meta: meta(),
                value: "é".into(),
            }),
            SoftBreak { meta: meta() }.into(),
            Tag::new("é").into(),
        ]
    );
}

#[test]
fn emphasis_and_strong() {
    use EmphasisDelimiter::{Asterisk, Underscore};
    for (number, delimiter) in [Asterisk, Underscore].into_iter().enumerate() {
        let record = |kind| with([number as u32, 0, 0], plain(kind, 2));
        assert_eq!(
            inlines(&[record(34), plain(31, 3), record(35), plain(31, 3)]),
            [
                Inline::Emphasis(Emphasis {
                    meta: meta(),
                    delimiter,
                    children: vec![text("")],
                }),
                Inline::Strong(Strong {
                    meta: meta(),
                    delimiter,
                    children: vec![text("")],
                }),
            ]
        );
    }
}

#[test]
fn strikethroughs_and_marks() {
    assert_eq!(
        inlines(&[plain(36, 2), plain(31, 3), plain(37, 2), plain(31, 3)]),
        [
            Inline::Delete(Delete {
                meta: meta(),
                children: vec![text("")],
            }),
            Inline::Mark(Mark {
                meta: meta(),
                children: vec![text("")],
            }),
        ]
    );
}

#[test]
fn links_and_images() {
    use LinkDestinationKind::{Angle, Bare, Omitted};
    for (number, destination_kind) in [Bare, Angle, Omitted].into_iter().enumerate() {
        let words = [number as u32, 0, 0];
        let named = |kind| first(3, 1, with(words, plain(kind, 2)));
        assert_eq!(
            inlines(&[named(40), plain(31, 3), named(42), plain(31, 3)]),
            [
                Inline::Link(Link {
                    meta: meta(),
                    destination: "b".into(),
                    destination_kind,
                    title: None,
                    children: vec![text("")],
                }),
                Inline::Image(Image {
                    meta: meta(),
                    destination: "b".into(),
                    destination_kind,
                    title: None,
                    alt: vec![text("")],
                }),
            ]
        );
    }
}

/// The first text is the identifier, the second the label.
#[test]
fn references() {
    let named = |kind| second(3, 1, first(0, 1, plain(kind, 2)));
    assert_eq!(
        inlines(&[named(43), plain(31, 3), named(44), plain(31, 3)]),
        [
            Inline::LinkReference(LinkReference {
                meta: meta(),
                identifier: "a".into(),
                label: "b".into(),
                kind: ReferenceKind::Full,
                children: vec![text("")],
            }),
            Inline::ImageReference(ImageReference {
                meta: meta(),
                identifier: "a".into(),
                label: "b".into(),
                kind: ReferenceKind::Full,
                alt: vec![text("")],
            }),
        ]
    );
}

/// The first text is the identifier or the target, the second the label.
#[test]
fn footnote_references_and_wikilinks() {
    let named = |kind| second(3, 1, first(0, 1, plain(kind, 2)));
    assert_eq!(
        inlines(&[named(49), named(51)]),
        [
            Inline::FootnoteReference(FootnoteReference {
                meta: meta(),
                label: "b".into(),
                identifier: "a".into(),
            }),
            Inline::WikiLink(WikiLink {
                meta: meta(),
                target: "a".into(),
                label: "b".into(),
                embed: false,
            }),
        ]
    );
}

#[test]
fn line_breaks_math_and_footnotes() {
    let hard = |kind| Inline::LineBreak(LineBreak { meta: meta(), kind });
    let math = |kind| {
        Inline::Math(MathInline {
            meta: meta(),
            value: "a".into(),
            kind,
        })
    };
    let formula = first(0, 1, plain(48, 2));
    assert_eq!(
        inlines(&[
            plain(47, 2),
            with([1, 0, 0], plain(47, 2)),
            formula,
            with([0, 255, 0], formula),
            with([1, 0, 0], formula),
            plain(50, 2),
            plain(31, 3),
        ]),
        [
            hard(LineBreakKind::Backslash),
            hard(LineBreakKind::Spaces),
            math(MathInlineKind::Dollar { dollars: 0 }),
            math(MathInlineKind::Dollar { dollars: 255 }),
            math(MathInlineKind::Code),
            Inline::InlineFootnote(InlineFootnote {
                meta: meta(),
                children: vec![text("")],
            }),
        ]
    );
}

/// Levels go down to 64.
#[test]
fn deep_sheets() {
    let quotes: Vec<Record> = (1..=63).map(|level| plain(4, level)).collect();
    let words = report(&[&quotes[..], &[plain(2, 64)]].concat());
    assert_eq!(words[..5], [10, 0, 0, 0, 64]);
    assert_eq!(words[5..], [0; 64]);
}
