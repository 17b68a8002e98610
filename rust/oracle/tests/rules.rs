//! Each rule on a small document, through what the oracle makes public; and
//! the dropped messages beside them.

use oracle::{ast::*, is_tag_name, kept, rule, span::Span, validate, DROPPED, KEPT};

fn rules(blocks: Vec<Block>) -> Vec<u32> {
    let list = kept(&Document::new(blocks));
    list.into_iter().map(|(rule, _)| rule).collect()
}

fn meta() -> NodeMeta {
    NodeMeta::default()
}

fn text(value: &str) -> Inline {
    Text::new(value).into()
}

fn paragraph(children: Vec<Inline>) -> Block {
    Paragraph::new(children).into()
}

fn words() -> Block {
    paragraph(vec![text("x")])
}

fn blank() -> Block {
    BlankLine::new().into()
}

fn item(children: Vec<Block>) -> ListItem {
    ListItem::new(children)
}

fn list(children: Vec<ListItem>) -> Block {
    List::new(children).into()
}

fn loose(children: Vec<ListItem>) -> Block {
    let mut list = List::new(children);
    list.tight = false;
    list.into()
}

fn ordered(delimiter: ListDelimiter, number: Option<u64>) -> Block {
    let mut list = List::new([item(vec![words()])]);
    list.ordered = true;
    list.delimiter = delimiter;
    list.children[0].number = number;
    list.into()
}

fn quote(children: Vec<Block>) -> Block {
    BlockQuote {
        meta: meta(),
        children,
    }
    .into()
}

fn alert(title: Option<&str>) -> Block {
    Alert {
        meta: meta(),
        kind: AlertKind::Tip,
        title: title.map(Into::into),
        children: vec![words()],
    }
    .into()
}

fn indented(value: &str, info: Option<&str>) -> Block {
    CodeBlock {
        meta: meta(),
        kind: CodeBlockKind::Indented,
        info: info.map(Into::into),
        value: value.into(),
    }
    .into()
}

fn html(value: &str) -> Block {
    HtmlBlock {
        meta: meta(),
        value: value.into(),
    }
    .into()
}

fn container(opening: (&str, &str), closing: (&str, &str), content: HtmlContainerContent) -> Block {
    let tag = |(name, raw): (&str, &str)| HtmlTag {
        meta: meta(),
        name: name.into(),
        raw: raw.into(),
    };
    HtmlContainer {
        meta: meta(),
        opening: tag(opening),
        content,
        closing: tag(closing),
    }
    .into()
}

fn tags(opening: (&str, &str), closing: (&str, &str)) -> Block {
    container(opening, closing, HtmlContainerContent::Blocks(Vec::new()))
}

fn definition(label: &str, identifier: &str, destination: &str) -> Block {
    Definition {
        meta: meta(),
        label: label.into(),
        identifier: identifier.into(),
        destination: destination.into(),
        destination_kind: LinkDestinationKind::Bare,
        title: None,
    }
    .into()
}

fn footnote(identifier: &str, children: Vec<Block>) -> Block {
    FootnoteDefinition {
        meta: meta(),
        label: identifier.into(),
        identifier: identifier.into(),
        children,
    }
    .into()
}

fn table(width: usize, rows: Vec<Vec<Vec<Inline>>>) -> Block {
    Table {
        meta: meta(),
        alignments: vec![TableAlignment::None; width],
        rows: rows
            .into_iter()
            .map(|cells| TableRow {
                meta: meta(),
                cells: cells.into_iter().map(TableCell::new).collect(),
            })
            .collect(),
    }
    .into()
}

fn cell(inline: Inline) -> Block {
    table(1, vec![vec![vec![inline]]])
}

fn frontmatter(kind: FrontmatterKind, value: &str) -> Block {
    Frontmatter {
        meta: meta(),
        kind,
        value: value.into(),
    }
    .into()
}

fn leaf(name: &str, label: Vec<Inline>) -> Block {
    let mut directive = LeafDirective::new(name);
    directive.label = label;
    directive.into()
}

fn attributed(name: &str) -> Block {
    let mut directive = LeafDirective::new("x");
    directive.attributes.push(DirectiveAttribute {
        name: name.into(),
        value: None,
    });
    directive.into()
}

fn code(value: &str) -> Inline {
    CodeInline::new(value).into()
}

fn math(kind: MathInlineKind, value: &str) -> Inline {
    MathInline {
        meta: meta(),
        value: value.into(),
        kind,
    }
    .into()
}

fn soft() -> Inline {
    SoftBreak { meta: meta() }.into()
}

fn hard(kind: LineBreakKind) -> Inline {
    LineBreak { meta: meta(), kind }.into()
}

fn emphasis(children: Vec<Inline>) -> Inline {
    Emphasis {
        meta: meta(),
        delimiter: EmphasisDelimiter::Asterisk,
        children,
    }
    .into()
}

fn delete(children: Vec<Inline>) -> Inline {
    Delete {
        meta: meta(),
        children,
    }
    .into()
}

fn link(children: Vec<Inline>) -> Inline {
    Link::new("x", children).into()
}

fn autolink() -> Inline {
    Autolink::new(AutolinkForm::Angle, "x").into()
}

fn reference(identifier: &str, label: &str) -> Inline {
    LinkReference {
        meta: meta(),
        identifier: identifier.into(),
        label: label.into(),
        kind: ReferenceKind::Full,
        children: Vec::new(),
    }
    .into()
}

fn image_reference(identifier: &str, label: &str) -> Inline {
    ImageReference {
        meta: meta(),
        identifier: identifier.into(),
        label: label.into(),
        kind: ReferenceKind::Full,
        alt: Vec::new(),
    }
    .into()
}

fn footnote_reference(identifier: &str, label: &str) -> Inline {
    FootnoteReference {
        meta: meta(),
        label: label.into(),
        identifier: identifier.into(),
    }
    .into()
}

fn wikilink(target: &str, label: &str) -> Inline {
    WikiLink {
        meta: meta(),
        target: target.into(),
        label: label.into(),
        embed: false,
    }
    .into()
}

/// One document for each rule, with the whole list that it gets.
fn faults() -> Vec<(u32, Vec<Block>, Vec<u32>)> {
    let one = |inline| vec![paragraph(vec![inline])];
    let mut task = item(Vec::new());
    task.checked = Some(false);
    let mut numbered = item(vec![words()]);
    numbered.number = Some(1);
    let mut labelled = ContainerDirective::new("x", vec![words()]);
    labelled.label = vec![text("x"), soft(), text("x")];
    let last = item(vec![words(), words(), blank()]);
    vec![
        (
            1,
            vec![
                list(vec![item(vec![words()])]),
                blank(),
                list(vec![item(vec![words()])]),
            ],
            vec![1],
        ),
        (2, vec![paragraph(vec![text("")])], vec![2]),
        (3, vec![footnote("", vec![words()])], vec![3]),
        (
            4,
            vec![footnote("x", vec![blank(), words(), blank()])],
            vec![4],
        ),
        (5, vec![tags(("", "x"), ("x", "x"))], vec![5, 7]),
        (6, vec![tags(("x", "x"), ("", "x"))], vec![6, 7]),
        (7, vec![tags(("x", "x"), ("y", "x"))], vec![7]),
        (8, vec![tags(("x", ""), ("x", "x"))], vec![8]),
        (9, vec![tags(("x", "x"), ("x", ""))], vec![9]),
        (10, vec![Heading::new(7, [text("x")]).into()], vec![10]),
        (11, vec![alert(Some("x\t"))], vec![11]),
        (12, vec![list(Vec::new())], vec![12]),
        (13, vec![loose(vec![item(vec![words()])])], vec![13]),
        (14, vec![list(vec![task])], vec![14]),
        (
            15,
            vec![footnote("x", vec![words()]), blank(), indented("x", None)],
            vec![15],
        ),
        (16, vec![table(1, Vec::new())], vec![16]),
        (17, vec![table(0, vec![Vec::new()])], vec![17]),
        (18, vec![table(2, vec![vec![vec![]]])], vec![18]),
        (19, vec![table(1, vec![vec![vec![]], vec![]])], vec![19]),
        (20, vec![cell(soft())], vec![20]),
        (21, vec![cell(code(r"\|"))], vec![21]),
        (
            22,
            vec![leaf(
                "x",
                vec![emphasis(vec![text("x"), soft(), text("x")])],
            )],
            vec![22],
        ),
        (23, vec![labelled.into()], vec![23]),
        (24, vec![definition("x", " \t\r\n", "x")], vec![24]),
        (25, vec![definition("x", "x", "")], vec![25]),
        (26, vec![indented("x", Some(""))], vec![26]),
        (27, vec![indented(" \nx", None)], vec![27]),
        (
            28,
            vec![quote(vec![frontmatter(FrontmatterKind::Yaml, "x")])],
            vec![28],
        ),
        (
            29,
            vec![frontmatter(FrontmatterKind::Toml, "x\r+++ \t\nx")],
            vec![29],
        ),
        (
            30,
            vec![paragraph(vec![text("x"), hard(LineBreakKind::Backslash)])],
            vec![30],
        ),
        (31, one(text("\r")), vec![31]),
        (32, one(reference("", "")), vec![32]),
        (33, one(image_reference("", "")), vec![33]),
        (34, one(footnote_reference("", "")), vec![34]),
        (
            35,
            one(InlineFootnote {
                meta: meta(),
                children: Vec::new(),
            }
            .into()),
            vec![35],
        ),
        (36, one(wikilink("", "x")), vec![36]),
        (
            37,
            vec![paragraph(vec![text("x"), soft(), soft(), text("x")])],
            vec![37],
        ),
        (
            38,
            vec![paragraph(vec![
                delete(vec![text("x")]),
                delete(vec![text("x")]),
            ])],
            vec![38],
        ),
        (39, one(emphasis(vec![text("")])), vec![39]),
        (40, one(emphasis(vec![text("x\u{2028}")])), vec![40]),
        (41, one(delete(vec![delete(vec![text("x")])])), vec![41]),
        (42, one(link(vec![emphasis(vec![autolink()])])), vec![42]),
        (
            43,
            one(Escape {
                meta: meta(),
                value: 'x',
            }
            .into()),
            vec![43],
        ),
        (44, one(code("")), vec![44]),
        (45, one(code("\n")), vec![45]),
        (46, one(math(MathInlineKind::Code, "")), vec![46]),
        (
            47,
            one(math(MathInlineKind::Dollar { dollars: 0 }, "x")),
            vec![47],
        ),
        (48, one(math(MathInlineKind::Code, "`$")), vec![48]),
        (49, vec![list(vec![numbered])], vec![49]),
        (
            50,
            vec![ordered(ListDelimiter::Period, Some(1_000_000_000))],
            vec![50],
        ),
        (
            51,
            vec![list(vec![item(vec![words(), blank(), words()])])],
            vec![51],
        ),
        (
            52,
            vec![loose(vec![item(vec![blank(), words(), words()])])],
            vec![52],
        ),
        (53, vec![loose(vec![last])], vec![53]),
        (54, vec![leaf("x2", Vec::new())], vec![54]),
        (55, vec![attributed("2x")], vec![55]),
        (56, vec![paragraph(vec![Tag::new("2").into()])], vec![56]),
    ]
}

#[test]
fn each_rule_is_reported() {
    let faults = faults();
    assert_eq!(faults.len(), KEPT.len());
    for (index, (rule, blocks, expected)) in faults.into_iter().enumerate() {
        assert_eq!(index as u32 + 1, rule);
        assert!(expected.contains(&rule));
        assert_eq!(rules(blocks), expected, "rule {rule}");
    }
}

/// The same faults in a container: each is found there too, and none is kept
/// away by what stands before it.
#[test]
fn each_rule_is_reported_inside() {
    for (rule, blocks, _) in faults() {
        let before = html("<!-- open");
        assert!(
            rules(vec![before, quote(blocks)]).contains(&rule),
            "rule {rule}"
        );
    }
}

#[test]
fn no_block_no_diagnostic() {
    assert!(validate(&Document::new(Vec::new())).is_empty());
}

#[test]
fn proved_cases_of_document_01() {
    for (depth, expected) in [(0, vec![10]), (1, vec![]), (6, vec![]), (7, vec![10])] {
        assert_eq!(
            rules(vec![Heading::new(depth, [text("x")]).into()]),
            expected
        );
    }
    let number = |number| rules(vec![ordered(ListDelimiter::Paren, Some(number))]);
    assert_eq!(number(999_999_999), []);
    assert_eq!(number(1_000_000_000), [50]);
    assert_eq!(rules(vec![loose(vec![item(vec![words()])])]), [13]);
    assert_eq!(rules(vec![loose(vec![item(vec![words(), words()])])]), []);
    assert_eq!(rules(vec![cell(code(r"\|"))]), [21]);
    assert_eq!(rules(vec![cell(code(r"\\|"))]), []);
}

/// Every pair of lists: those of one written marker are adjacent lists.
#[test]
fn written_markers() {
    use ListDelimiter::{Asterisk, Dash, Paren, Period, Plus};
    let mut lists = Vec::new();
    for (ordered, marked) in [
        (
            false,
            [
                (Dash, '-'),
                (Asterisk, '*'),
                (Plus, '+'),
                (Period, '-'),
                (Paren, '-'),
            ],
        ),
        (
            true,
            [
                (Dash, '.'),
                (Asterisk, '.'),
                (Plus, '.'),
                (Period, '.'),
                (Paren, ')'),
            ],
        ),
    ] {
        for (delimiter, marker) in marked {
            let mut list = List::new([item(vec![words()])]);
            list.ordered = ordered;
            list.delimiter = delimiter;
            lists.push((list, marker));
        }
    }
    for (left, left_marker) in &lists {
        for (right, right_marker) in &lists {
            let found = rules(vec![left.clone().into(), right.clone().into()]);
            assert_eq!(found == [1], left_marker == right_marker);
            assert_eq!(found.is_empty(), left_marker != right_marker);
        }
    }
}

/// Spans are copied from the record that document 01 names, paths count
/// blocks, items, rows and cells, and an attribute has no span.
#[test]
fn spans_and_paths() {
    let at = |start| NodeMeta::new(Some(Span::new(start, start + 1)));
    let mut bad = LeafDirective::new("2");
    bad.meta = at(1);
    bad.attributes.push(DirectiveAttribute {
        name: String::new(),
        value: None,
    });
    bad.label = vec![LineBreak {
        meta: at(2),
        kind: LineBreakKind::Spaces,
    }
    .into()];
    let document = Document::new(vec![
        words(),
        list(vec![item(vec![words()]), item(vec![bad.into()])]),
    ]);
    let found: Vec<_> = kept(&document)
        .into_iter()
        .map(|(rule, diagnostic)| (rule, diagnostic.span, diagnostic.path.unwrap().0))
        .collect();
    let path = vec![1, 1, 0];
    let span = |start| Some(Span::new(start, start + 1));
    assert_eq!(
        found,
        [
            (54, span(1), path.clone()),
            (55, None, path.clone()),
            (30, span(2), path.clone()),
            (22, span(2), path),
        ]
    );
}

/// What a stub stands for is not reported, whatever the document holds.
#[test]
fn stubs_are_silent() {
    let dollar = math(MathInlineKind::Dollar { dollars: 1 }, " $ ");
    let shortcode = Shortcode {
        meta: meta(),
        name: "no such name".into(),
    };
    let inlines = vec![
        dollar,
        shortcode.into(),
        autolink(),
        Autolink::new(AutolinkForm::Literal, "").into(),
        CharacterReference::new("x").into(),
        reference("x", ""),
        image_reference("x", "]"),
        footnote_reference("x", "]"),
    ];
    let blocks = vec![
        paragraph(inlines),
        definition("^x", "y", "x"),
        footnote("x", vec![words()]),
        html("<!-- open"),
        words(),
        list(vec![
            item(vec![words(), words(), html("x"), words()]),
            item(vec![quote(vec![words()]), words()]),
            item(vec![indented("x", None)]),
        ]),
    ];
    assert_eq!(validate(&Document::new(blocks)), []);
}

/// One dropped message is decided in part in the files themselves, so no
/// stub can silence it: [`kept`] leaves it out.
#[test]
fn what_no_stub_silences() {
    let dropped = |blocks| -> Vec<String> {
        let document = Document::new(blocks);
        assert_eq!(kept(&document), []);
        let list = validate(&document).into_iter();
        list.map(|diagnostic| diagnostic.message).collect()
    };
    let taken = "in a tight list item, a block must not be read as part of the block before it";
    for (left, right) in [
        (quote(vec![]), quote(vec![])),
        (cell(text("x")), words()),
        (list(vec![item(vec![words()])]), words()),
        (footnote("x", vec![words()]), words()),
    ] {
        assert_eq!(dropped(vec![list(vec![item(vec![left, right])])]), [taken]);
    }
    assert!(DROPPED.contains(&taken));
    assert_eq!(rule(taken), None);
}

/// Rule 56 goes by the files' own `is_tag_name`.
#[test]
fn names_of_tags() {
    for (name, passes) in [
        ("", false),
        ("a", true),
        ("2", false),
        ("łódź/2", true),
        ("_a", false),
        ("a_b-1", true),
        ("\u{2160}", false),
        ("a\u{2160}", true),
        ("a b", false),
    ] {
        assert_eq!(is_tag_name(name), passes, "{name:?}");
        let found = rules(vec![paragraph(vec![Tag::new(name).into()])]);
        let expected: &[u32] = if passes { &[] } else { &[56] };
        assert_eq!(found, expected, "{name:?}");
    }
}

/// Rule 15 stands before the tight-item messages and is given alone.
#[test]
fn indented_code_in_a_tight_item() {
    let document = Document::new(vec![list(vec![item(vec![
        footnote("x", vec![words()]),
        indented("x", None),
    ])])]);
    assert_eq!(validate(&document).len(), 1);
    assert_eq!(kept(&document)[0].0, 15);
}

/// Document 01's traps.
#[test]
fn traps() {
    let ends = || vec![text("x"), hard(LineBreakKind::Backslash)];
    let bare = |inline: Inline| rules(vec![paragraph(vec![inline])]);
    // Rule 30 is not tested in these.
    assert_eq!(bare(link(ends())), []);
    for inline in [
        Inline::Image(Image {
            meta: meta(),
            destination: "x".into(),
            destination_kind: LinkDestinationKind::Bare,
            title: None,
            alt: ends(),
        }),
        Inline::LinkReference(LinkReference {
            meta: meta(),
            identifier: "x".into(),
            label: "x".into(),
            kind: ReferenceKind::Shortcut,
            children: ends(),
        }),
        Inline::ImageReference(ImageReference {
            meta: meta(),
            identifier: "x".into(),
            label: "x".into(),
            kind: ReferenceKind::Shortcut,
            alt: ends(),
        }),
        Inline::InlineFootnote(InlineFootnote {
            meta: meta(),
            children: ends(),
        }),
        Inline::TextDirective(TextDirective {
            meta: meta(),
            name: "x".into(),
            label: ends(),
            attributes: Vec::new(),
        }),
    ] {
        assert_eq!(bare(inline), []);
    }
    // It is in the emphasis kinds, after rule 40.
    assert_eq!(bare(emphasis(ends())), [40, 30]);
    // Rule 24 trims; 3 and 32 to 34 do not.
    assert_eq!(rules(vec![definition("x", "\n", "x")]), [24]);
    assert_eq!(rules(vec![footnote(" ", vec![])]), []);
    assert_eq!(bare(reference(" ", " ")), []);
    assert_eq!(bare(image_reference("\n", "\n")), []);
    assert_eq!(bare(footnote_reference("\t", "\t")), []);
    // A footnote definition of one blank line: rule 4 once.
    assert_eq!(rules(vec![footnote("x", vec![blank()])]), [4]);
    // CRLF is one line ending.
    assert_eq!(rules(vec![indented("x\r\n", None)]), []);
    assert_eq!(rules(vec![indented("x\n\r", None)]), [27]);
    // The content of an HTML container of inlines is read as inlines.
    let inlines = HtmlContainerContent::Inlines(ends());
    assert_eq!(
        rules(vec![container(("x", "x"), ("x", "x"), inlines)]),
        [30]
    );
}
