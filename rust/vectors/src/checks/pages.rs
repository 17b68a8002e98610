//! Document 01's proved cases and traps, and pages for each rule of blocks and
//! for rule 56, with what is easily got wrong there.

use cases::{
    draft::Draft,
    letters::{self, Letter, Tree},
    plain, Sheet,
};

use super::{Case, Room};

/// The blocks of a page.
type Page = Vec<Tree>;

fn x() -> Tree {
    letters::text("x").alone()
}

/// A paragraph that no rule finds anything in.
fn words() -> Tree {
    letters::paragraph().under([x()])
}

fn blank() -> Tree {
    letters::blank_line().alone()
}

fn indented(value: &str) -> Tree {
    letters::code_block(1, None, value).alone()
}

fn item(blocks: impl IntoIterator<Item = Tree>) -> Tree {
    letters::item(0, None).under(blocks)
}

fn tight(items: impl IntoIterator<Item = Tree>) -> Tree {
    letters::list(0, 0, 1).under(items)
}

fn loose(items: impl IntoIterator<Item = Tree>) -> Tree {
    letters::list(0, 0, 0).under(items)
}

fn quote(blocks: impl IntoIterator<Item = Tree>) -> Tree {
    letters::block_quote().under(blocks)
}

fn footnote(blocks: impl IntoIterator<Item = Tree>) -> Tree {
    letters::footnote_definition("x").under(blocks)
}

/// A table of one cell.
fn in_cell(inlines: impl IntoIterator<Item = Tree>) -> Tree {
    let cell = letters::cell().under(inlines);
    letters::table(1).under([letters::row().under([cell])])
}

/// A table with rows of so many cells each.
fn table(alignments: u32, rows: &[usize]) -> Tree {
    let row = |&cells: &usize| letters::row().under((0..cells).map(|_| letters::cell().alone()));
    letters::table(alignments).under(rows.iter().map(row))
}

/// "Proved cases, with the rule reported".
fn proved() -> Vec<Page> {
    let number = |number| {
        let item = letters::item(0, Some(number)).under([words()]);
        vec![letters::list(1, 3, 1).under([item])]
    };
    let list = || tight([item([words()])]);
    vec![
        vec![],
        vec![letters::heading(0).alone()],
        vec![letters::heading(7).alone()],
        vec![letters::heading(1).alone()],
        vec![letters::heading(6).alone()],
        number(999_999_999),
        number(1_000_000_000),
        vec![list(), blank(), list()],
        vec![loose([item([words()])])],
        vec![loose([item([words(), words()])])],
        vec![in_cell([letters::code("\\|").alone()])],
        vec![in_cell([letters::code("\\\\|").alone()])],
    ]
}

/// Rule 1: every pair of written markers, and what may stand between.
fn adjacent_lists() -> Vec<Page> {
    let list = |ordered, delimiter| letters::list(ordered, delimiter, 1).under([item([words()])]);
    let mut all = Vec::new();
    for left in 0..5 {
        for right in 0..5 {
            all.push(vec![list(0, left), list(0, right)]);
            all.push(vec![list(1, left), list(1, right)]);
        }
        all.push(vec![list(0, left), list(1, left)]);
    }
    let one = || list(0, 0);
    all.extend([
        vec![one(), blank(), blank(), one()],
        vec![blank(), one(), one(), one()],
        vec![one(), letters::thematic_break().alone(), one()],
        vec![one(), words(), blank(), one()],
        vec![tight([item([words(), one(), one()])])],
        vec![one(), quote([one()]), one()],
    ]);
    all
}

/// Rules 2 to 4.
fn paragraphs_and_footnotes() -> Vec<Page> {
    let empty = || letters::text("").alone();
    let paragraph = |inlines: Vec<Tree>| vec![letters::paragraph().under(inlines)];
    let named = |identifier| vec![letters::footnote_definition(identifier).under([words()])];
    vec![
        paragraph(vec![]),
        paragraph(vec![empty()]),
        paragraph(vec![empty(), empty()]),
        paragraph(vec![empty(), x(), empty()]),
        paragraph(vec![letters::emphasis(0).under([empty()])]),
        paragraph(vec![letters::soft().alone()]),
        named(""),
        named(" "),
        named("\n"),
        vec![footnote([])],
        vec![footnote([blank()])],
        vec![footnote([blank(), blank()])],
        vec![footnote([blank(), words()])],
        vec![footnote([words(), blank()])],
        vec![footnote([blank(), words(), blank()])],
        vec![footnote([words(), blank(), words()])],
        vec![footnote([footnote([words(), blank()]), blank()])],
    ]
}

/// Rules 5 to 9, with content of both sorts.
fn containers() -> Vec<Page> {
    let mut all = Vec::new();
    let container = |content, [name, raw, end, end_raw]: [&str; 4], under: Vec<Tree>| {
        let tags = vec![
            letters::html_tag(name, raw).alone(),
            letters::html_tag(end, end_raw).alone(),
        ];
        vec![letters::html_container(content).under([tags, under].concat())]
    };
    for empty in 0..16 {
        let text = |bit: u32| if empty >> bit & 1 == 1 { "" } else { "x" };
        all.push(container(0, [0, 1, 2, 3].map(text), vec![]));
    }
    let good = ["x", "<x>", "x", "</x>"];
    all.extend([
        container(0, ["x", "<x>", "X", "</X>"], vec![words()]),
        container(0, ["x", "<x>", "x ", "</x >"], vec![]),
        container(0, good, vec![letters::heading(0).alone(), blank()]),
        container(0, good, vec![letters::frontmatter(0, "x").alone()]),
        container(1, good, vec![x(), letters::hard(0).alone()]),
        container(
            1,
            good,
            vec![letters::soft().alone(), letters::soft().alone()],
        ),
        container(1, ["x", "", "y", ""], vec![letters::code("").alone()]),
        vec![letters::html_container(0).alone()],
        vec![
            words(),
            letters::html_container(0).under([letters::html_tag("x", "x").alone()]),
        ],
    ]);
    all
}

/// Rules 10 and 11.
fn headings_and_alerts() -> Vec<Page> {
    let mut all: Vec<Page> = [2, 5, 8, 255]
        .map(|depth| vec![letters::heading(depth).under([x(), letters::hard(1).alone()])])
        .into();
    for title in [
        "", "x", " x", "x ", "\tx", "x\t", " ", "x y", "\u{a0}x", "x\n", "é",
    ] {
        all.push(vec![
            letters::alert(Some(title)).under([letters::heading(9).alone()])
        ]);
    }
    all.push(vec![
        letters::alert(None).under([letters::alert(None).alone()])
    ]);
    all
}

/// Rules 12 to 14.
fn lists() -> Vec<Page> {
    let task =
        |checked, blocks: Vec<Tree>| vec![tight([letters::item(checked, None).under(blocks)])];
    let definition = || letters::definition("x", 0, "x").alone();
    let bare = || letters::paragraph().alone();
    let empty = || letters::paragraph().under([letters::text("").alone()]);
    vec![
        vec![tight([])],
        vec![loose([])],
        vec![loose([item([])])],
        vec![loose([item([words(), blank()])])],
        vec![loose([item([words(), blank(), words()])])],
        vec![loose([item([]), item([])])],
        vec![tight([item([])])],
        task(1, vec![]),
        task(2, vec![words()]),
        task(1, vec![definition(), words()]),
        task(2, vec![definition(), definition()]),
        task(1, vec![bare()]),
        task(1, vec![empty()]),
        task(2, vec![blank(), words()]),
        task(2, vec![quote([words()]), words()]),
        task(0, vec![quote([words()])]),
    ]
}

/// Rule 15.
fn indented_code() -> Vec<Page> {
    let fenced = || letters::code_block(0, None, "x").alone();
    let code = || indented("x");
    vec![
        vec![footnote([words()]), code()],
        vec![footnote([words()]), blank(), blank(), code()],
        vec![code(), code(), blank(), code()],
        vec![fenced(), code()],
        vec![code(), fenced()],
        vec![quote([words()]), code()],
        vec![tight([item([words()])]), code()],
        vec![tight([item([code(), code()])])],
        vec![loose([item([code(), blank(), code()]), item([words()])])],
        vec![blank(), code()],
        vec![letters::html_block().alone(), code()],
    ]
}

/// Rules 16 to 19.
fn tables() -> Vec<Page> {
    let shapes: [(u32, &[usize]); 14] = [
        (0, &[]),
        (1, &[]),
        (0, &[0]),
        (1, &[0]),
        (1, &[1]),
        (0, &[1]),
        (2, &[1]),
        (1, &[2]),
        (u32::MAX, &[1]),
        (1, &[1, 0]),
        (1, &[1, 2, 1]),
        (2, &[2, 1, 2, 3]),
        (0, &[0, 1]),
        (3, &[3, 3]),
    ];
    shapes
        .map(|(alignments, rows)| vec![table(alignments, rows)])
        .into()
}

/// Rules 20 and 21: every kind of value, and breaks at any depth.
fn cells() -> Vec<Page> {
    let mut all = Vec::new();
    for value in [
        "|", "\\|", "\\\\|", "\\\\\\|", "|\\|", "\\a|", "\\\\|\\|", "\\",
    ] {
        let values = [
            letters::text(value),
            letters::code(value),
            letters::dollars(1, value),
            letters::code_math(value),
            letters::html(value),
            letters::autolink(value),
            letters::tag(value),
        ];
        let labels = [
            letters::link_reference(value, "x"),
            letters::link_reference("x", value),
            letters::image_reference("x", value),
            letters::footnote_reference("x", value),
            letters::wikilink(value, "x"),
            letters::wikilink("x", value),
            letters::wikilink(value, value),
            letters::link(0, value),
        ];
        all.push(vec![in_cell(values.map(|letter| letter.alone()))]);
        all.push(vec![in_cell(labels.map(|letter| letter.alone()))]);
    }
    let deep =
        |letter: Letter| letters::strong(0).under([letters::link(0, "x").under([letter.alone()])]);
    all.push(vec![in_cell([
        deep(letters::code("\\|")),
        deep(letters::soft()),
    ])]);
    for letter in letters::breaks() {
        all.push(vec![in_cell([x(), letter.alone(), x()])]);
        all.push(vec![in_cell([x(), letter.alone()])]);
        all.push(vec![in_cell([deep(letter)])]);
    }
    all
}

/// Rule 56, with the path of the paragraph, heading, cell or directive around
/// it.
fn tags() -> Vec<Page> {
    let mut all = Vec::new();
    for name in ["a", "łódź/2", "Ωmega_1-a", "", "2", "²", "_", "a b", "a×"] {
        let tag = || letters::tag(name).alone();
        all.push(vec![
            letters::paragraph().under([tag(), x(), tag()]),
            letters::heading(1).under([letters::link(0, "x").under([tag()])]),
            in_cell([letters::mark().under([tag()])]),
        ]);
        all.push(vec![
            letters::leaf_directive("x").under([tag()]),
            letters::container_directive("x").under([tag(), words()]),
        ]);
    }
    all
}

/// Rules 22, 23, 54 and 55.
fn directives() -> Vec<Page> {
    let mut all = Vec::new();
    for name in ["a", "a-b", "", "-", "a-", "-a", "a--b", "a1", "é", "A-z"] {
        all.push(vec![
            letters::leaf_directive(name).alone(),
            letters::container_directive(name).alone(),
        ]);
    }
    for name in ["a", "_", "-", "a:1", "", "1", ":", "é", "a b"] {
        let attribute = || letters::attribute(name).alone();
        all.push(vec![letters::leaf_directive("x").under([
            attribute(),
            attribute(),
            x(),
        ])]);
        all.push(vec![
            letters::container_directive("").under([attribute(), words()])
        ]);
    }
    let leaf = letters::leaf_directive;
    let container = letters::container_directive;
    for letter in letters::breaks() {
        let label = || [x(), letter.alone(), x()];
        let deep = || [letters::delete().under(label())];
        all.push(vec![
            leaf("x").under(label()),
            leaf("x").under([letter.alone()]),
        ]);
        all.push(vec![leaf("x").under(deep())]);
        all.push(vec![container("x").under(label())]);
        let blocks = [
            letters::paragraph().under(label()),
            letters::heading(0).alone(),
        ];
        let both: Vec<Tree> = deep().into_iter().chain(blocks).collect();
        all.push(vec![container("x").under(both)]);
    }
    all
}

/// Rules 24 to 29.
fn values() -> Vec<Page> {
    let mut all = Vec::new();
    for identifier in [
        "", "x", " ", "\t", "\r\n", " \t\r\n", "\u{b}", "\u{a0}", " x ",
    ] {
        let definition = |kind, to| letters::definition(identifier, kind, to).alone();
        all.push(vec![definition(0, ""), definition(0, "x")]);
        all.push(vec![
            definition(1, ""),
            definition(2, ""),
            definition(2, "x"),
        ]);
    }
    for value in [
        "",
        "x",
        " ",
        "\n",
        "x\n",
        "x\r",
        "x\r\n",
        "x\n\n",
        "x\r\r",
        "x\r\n\r\n",
        "x\n\r",
        "\nx",
        "\r\nx",
        " \nx",
        "x\n\t",
        "x\n \nx",
        "\u{b}",
        "a\r\r\n",
    ] {
        let code = |form, info| letters::code_block(form, info, value).alone();
        all.push(vec![code(1, None), words(), code(0, None)]);
        all.push(vec![
            code(0, Some("")),
            code(0, Some("x")),
            words(),
            code(1, Some("")),
        ]);
    }
    for value in [
        "",
        "---",
        "+++",
        "x\n---",
        "x\r---\rx",
        "x\r\n---\r\n",
        "--- \t",
        " ---",
        "----",
        "--",
        "+++ x",
        "\t+++",
        "+++\t",
        "-+-",
    ] {
        let front = |kind| letters::frontmatter(kind, value).alone();
        all.push(vec![front(0), front(1)]);
    }
    all
}

/// Rule 28: inside each container, and not behind another block.
fn frontmatter() -> Vec<Page> {
    let front = || letters::frontmatter(0, "x").alone();
    vec![
        vec![words(), front()],
        vec![quote([front()])],
        vec![letters::alert(None).under([front()])],
        vec![tight([item([front()])])],
        vec![footnote([words(), front()])],
        vec![letters::container_directive("x").under([front()])],
    ]
}

/// Rules 49 to 53; and lists that go on from a number, or from none, whatever
/// numbers the later items have.
fn items() -> Vec<Page> {
    let numbers: [&[Option<u32>]; 5] = [
        &[None, Some(999_999_999), None, None],
        &[Some(999_999_999), None, Some(3), None],
        &[Some(7), Some(3), None],
        &[Some(0), None, Some(5)],
        &[None, Some(7), Some(1_000_000_000)],
    ];
    let item_of = |&number: &Option<u32>| letters::item(0, number).under([words()]);
    let list = |numbers: &[Option<u32>]| letters::list(1, 3, 1).under(numbers.iter().map(item_of));
    let mut all: Vec<Page> = numbers.map(|numbers| vec![list(numbers)]).into();
    for number in [0, 1, 999_999_999, 1_000_000_000, u32::MAX] {
        let numbered = |ordered, delimiter| {
            let item = letters::item(0, Some(number)).under([words()]);
            letters::list(ordered, delimiter, 1).under([item])
        };
        all.push(vec![
            numbered(0, 0),
            numbered(0, 3),
            numbered(1, 4),
            numbered(1, 0),
        ]);
    }
    let bodies = || {
        [
            vec![blank()],
            vec![blank(), words()],
            vec![words(), blank()],
            vec![words(), blank(), words()],
            vec![blank(), blank()],
            vec![blank(), words(), words(), blank()],
        ]
    };
    for body in bodies() {
        all.push(vec![tight([item(body.clone())])]);
        all.push(vec![loose([item(body.clone())])]);
        all.push(vec![loose([item(body.clone()), item([words()])])]);
        all.push(vec![loose([item([words()]), item(body)])]);
    }
    all
}

/// Traps of inlines that hang on the block around them.
fn endings() -> Vec<Page> {
    let ends = || [x(), letters::hard(0).alone()];
    let holders = [
        letters::link(0, "x"),
        letters::image(0, "x"),
        letters::link_reference("x", "x"),
        letters::image_reference("x", "x"),
        letters::inline_footnote(),
        letters::directive("x"),
        letters::emphasis(0),
        letters::mark(),
    ];
    let mut all: Vec<Page> = holders
        .iter()
        .map(|letter| vec![letters::paragraph().under([letter.under(ends()), x()])])
        .collect();
    for block in [
        letters::heading(1),
        letters::leaf_directive("x"),
        letters::container_directive("x"),
    ] {
        all.push(vec![block.under(ends())]);
    }
    all.push(vec![in_cell(ends())]);
    all.extend(
        [
            "\u{b}x",
            "x\u{85}",
            "\u{2028}",
            "x\u{2029}",
            "\u{200b}",
            "\u{a0}x",
        ]
        .map(|value| {
            let emphasis = letters::strong(1).under([letters::text(value).alone()]);
            vec![letters::paragraph().under([emphasis])]
        }),
    );
    all
}

/// Paths and levels down to 64.
fn deep() -> Vec<Page> {
    let nested = |levels: usize, inner: Tree, around: &dyn Fn(Tree) -> Tree| {
        vec![(0..levels).fold(inner, |inner, _| around(inner))]
    };
    let lists = |inner| tight([item([inner])]);
    let quotes = |inner| quote([inner]);
    let directives = |inner| letters::container_directive("x").under([inner]);
    let heading = || letters::heading(0).alone();
    vec![
        nested(63, heading(), &quotes),
        nested(
            62,
            letters::paragraph().under([letters::code("").alone()]),
            &quotes,
        ),
        nested(31, heading(), &lists),
        nested(30, in_cell([]), &lists),
        nested(60, in_cell([]), &quotes),
        nested(61, letters::list(0, 0, 0).under([item([])]), &directives),
        nested(63, blank(), &|inner| footnote([inner])),
    ]
}

fn sheet(seed: u64, page: &[Tree]) -> Sheet {
    let mut draft = Draft::new(seed);
    draft.add_trees(1, page);
    draft.done()
}

/// Sheets that no tree gives.
fn refused() -> Vec<Sheet> {
    let tag = plain(23, 2);
    let mut sheets: Vec<Sheet> = [1, 11, 12, 13, 23, 25]
        .map(|words| {
            (
                [plain(3, 1), plain(3, 1), plain(3, 1)].concat()[..words].to_vec(),
                vec![],
            )
        })
        .into();
    for records in [
        vec![plain(9, 1), tag, plain(1, 2), tag],
        vec![plain(9, 1), tag, tag, tag],
        vec![plain(9, 1), tag, tag, plain(31, 2)],
        vec![plain(16, 1), plain(1, 2), plain(31, 2)],
        vec![plain(15, 1), plain(31, 2), plain(24, 2)],
        vec![plain(9, 1), plain(9, 1), tag],
        (1..=64).map(|level| plain(4, level)).collect(),
        [
            (1..=63).map(|level| plain(4, level)).collect(),
            vec![plain(3, 65)],
        ]
        .concat(),
    ] {
        sheets.push((records.concat(), vec![]));
    }
    sheets
}

/// Every case: each page on its own with a report and marks exactly full, in
/// a quote with longer ones, and in an item with a report that is a word
/// short; where that is not too large.
pub fn all() -> Vec<Case> {
    let pages = [
        proved(),
        adjacent_lists(),
        paragraphs_and_footnotes(),
        containers(),
        headings_and_alerts(),
        lists(),
        indented_code(),
        tables(),
        cells(),
        directives(),
        tags(),
        values(),
        frontmatter(),
        items(),
        endings(),
    ];
    let mut cases = Vec::new();
    for (seed, page) in (0..).zip(pages.concat()) {
        let in_quote = [words(), quote(page.clone())];
        let in_item = [tight([item([]), item(page.clone())])];
        let sheets = [
            sheet(3 * seed, &page),
            sheet(3 * seed + 1, &in_quote),
            sheet(3 * seed + 2, &in_item),
        ];
        let rooms = [
            (Room::More(0), Room::More(0)),
            (Room::More(3), Room::More(2)),
            (Room::Less(1), Room::More(0)),
        ];
        let made = |(sheet, (report, marks))| Case::new(sheet, report, marks);
        cases.extend(sheets.into_iter().zip(rooms).filter_map(made));
    }
    for (seed, page) in (1000..).zip(deep()) {
        let sheet = sheet(seed, &page);
        cases.extend(Case::new(sheet.clone(), Room::More(0), Room::Less(1)));
        cases.extend(Case::new(sheet, Room::Less(1), Room::More(0)));
    }
    let made = |sheet| Case::new(sheet, Room::More(5), Room::More(1));
    cases.extend(refused().into_iter().filter_map(made));
    cases
}

#[cfg(test)]
mod tests {
    use super::*;
    use std::collections::BTreeSet;

    fn rules(page: &[Tree]) -> Vec<u32> {
        let case = Case::new(sheet(0, page), Room::More(0), Room::More(0)).unwrap();
        assert_eq!(case.number(), 0);
        case.rules().collect()
    }

    /// Document 01 says which rule each of its cases gets.
    #[test]
    fn proved_cases() {
        let expected = [0, 10, 10, 0, 0, 0, 50, 1, 13, 0, 21, 0];
        for (page, rule) in proved().iter().zip(expected) {
            let wanted: Vec<u32> = [rule].into_iter().filter(|&rule| rule != 0).collect();
            assert_eq!(rules(page), wanted);
        }
        assert_eq!(proved().len(), expected.len());
    }

    /// The rules of blocks, and 56, all occur among the pages, and are not
    /// always reported.
    #[test]
    fn rules_of_blocks() {
        let seen: BTreeSet<u32> = all()
            .iter()
            .flat_map(|case| case.rules().collect::<Vec<_>>())
            .collect();
        for rule in (1..=29).chain(49..=56) {
            assert!(seen.contains(&rule), "{rule}");
        }
        let silent = all().iter().filter(|case| case.answer == 0).count();
        assert!(silent >= 50, "{silent}");
    }

    /// Nearly every page is small enough.
    #[test]
    fn few_are_too_large() {
        assert!(all().len() >= 800, "{}", all().len());
    }
}
