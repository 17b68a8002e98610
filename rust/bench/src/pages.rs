//! The pages that are timed.

use reedsander::{
    tree::{Attribute, Block, Cell, Inline, Item, Marker, Row},
    Sheet,
};

/// How many rows the two tables have.
pub const FEW_ROWS: usize = 10_000;
pub const MANY_ROWS: usize = 30_000;

/// How many records a sheet may have.
const MOST_RECORDS: usize = 65_535;

/// The bytes of a long text.
const MEBIBYTE: usize = 1 << 20;

pub struct Page {
    pub name: String,
    pub sheet: Sheet,
}

fn page(name: impl Into<String>, blocks: &[Block<'_>]) -> Page {
    Page {
        name: name.into(),
        sheet: Sheet::new(blocks),
    }
}

/// Tables of one empty cell a row.
pub fn tables() -> [Page; 2] {
    [FEW_ROWS, MANY_ROWS].map(|rows| {
        let cells = (0..rows).map(|_| Row::new([Cell::new([])]));
        page(format!("table of {rows} rows"), &[Block::table(1, cells)])
    })
}

pub fn others() -> Vec<Page> {
    let mut all = vec![
        paragraphs(),
        nested_lists(),
        headings(),
        deep_headings(),
        long_texts("8 texts of 1 MiB, ASCII", "printer lights 26 25 29 "),
        long_texts("8 texts of 1 MiB, not ASCII", "Lichtbestimmung für 3½ €"),
        tags("20000 tags, ASCII", "reel/shot-"),
        tags("20000 tags, Greek", "μπομπίνα/λήψη-"),
    ];
    all.extend(long_values());
    all
}

/// The pages that are set to their end.
pub fn set_to_the_end() -> Vec<Page> {
    vec![
        paragraphs(),
        nested_lists(),
        good_headings(),
        numbered(),
        one_row(),
        long_texts("8 texts of 1 MiB, ASCII", "printer lights 26 25 29 "),
        long_texts("8 texts of 1 MiB, not ASCII", "Lichtbestimmung für 3½ €"),
    ]
}

/// A table whose rows, but for the first, have a cell too few.
pub fn bad_rows() -> Page {
    let count = 20_000;
    let row = |cells: usize| Row::new((0..cells).map(|_| Cell::new([])));
    let rows = [row(2)].into_iter().chain((0..count).map(|_| row(1)));
    page(format!("{count} bad rows"), &[Block::table(2, rows)])
}

/// Headings of every depth.
fn good_headings() -> Page {
    let depths = (1..=6).cycle().take(MOST_RECORDS);
    let blocks: Vec<Block<'_>> = depths.map(|depth| Block::heading(depth, [])).collect();
    page(format!("{MOST_RECORDS} headings"), &blocks)
}

/// One list that is numbered from 7. Every tenth item has a number of its own,
/// by which only the first is marked.
fn numbered() -> Page {
    let count = MOST_RECORDS - 1;
    let item = |at: usize| match at % 10 {
        0 => Item::new([]).number(7 + at as u32 / 10),
        _ => Item::new([]),
    };
    let list = Block::tight_list(Marker::PERIOD, (0..count).map(item));
    page(format!("a list of {count} items"), &[list])
}

/// One row of cells.
fn one_row() -> Page {
    let count = MOST_RECORDS - 2;
    let row = Row::new((0..count).map(|_| Cell::new([])));
    let table = Block::table(count as u32, [row]);
    page(format!("a row of {count} cells"), &[table])
}

/// Paragraphs of five inlines of 40 bytes, no two alike: 20,000 of them would
/// be 120,000 records, so as many as a sheet may have.
fn paragraphs() -> Page {
    let count = MOST_RECORDS / 6;
    let values: Vec<String> = (0..5 * count)
        .map(|at| format!("{:.<40}", format!("note {at}")))
        .collect();
    let blocks: Vec<Block<'_>> = values
        .chunks(5)
        .map(|values| {
            Block::paragraph([
                Inline::text(&values[0]),
                Inline::code(&values[1]),
                Inline::text(&values[2]),
                Inline::html(&values[3]),
                Inline::text(&values[4]),
            ])
        })
        .collect();
    page(format!("{count} paragraphs of five inlines"), &blocks)
}

/// Lists in items in lists down to level 60, again and again.
fn nested_lists() -> Page {
    let nested = |marker| {
        let inner = Block::paragraph([Inline::text("pass")]);
        (0..30).fold(inner, |inner, _| {
            Block::tight_list(marker, [Item::new([inner])])
        })
    };
    let count = MOST_RECORDS / 62;
    let blocks: Vec<Block<'_>> = (0..count)
        .map(|at| nested([Marker::DASH, Marker::ASTERISK][at % 2]))
        .collect();
    page(format!("{count} lists nested to level 60"), &blocks)
}

/// A diagnostic a block.
fn headings() -> Page {
    let blocks: Vec<Block<'_>> = (0..20_000).map(|_| Block::heading(0, [])).collect();
    page("20000 diagnostics", &blocks)
}

/// A diagnostic a block, each with a path of 60 indices.
fn deep_headings() -> Page {
    let inner: Vec<Block<'_>> = (0..20_000).map(|_| Block::heading(0, [])).collect();
    let block = (1..60).fold(inner, |inner, _| vec![Block::block_quote(inner)]);
    page("20000 diagnostics at level 60", &block)
}

/// What is repeated up to a mebibyte.
fn long(unit: &str) -> String {
    unit.repeat(MEBIBYTE / unit.len())
}

/// Eight texts, none of which is another.
fn long_texts(name: &str, unit: &str) -> Page {
    let values: Vec<String> = ('a'..='h')
        .map(|first| format!("{first}{}", long(unit)))
        .collect();
    let blocks: Vec<Block<'_>> = values
        .iter()
        .map(|value| Block::paragraph([Inline::text(value)]))
        .collect();
    page(name, &blocks)
}

/// Tags, a hundred a paragraph, no two of one name.
fn tags(name: &str, front: &str) -> Page {
    let names: Vec<String> = (0..20_000).map(|at| format!("{front}{at}")).collect();
    let blocks: Vec<Block<'_>> = names
        .chunks(100)
        .map(|names| Block::paragraph(names.iter().map(|name| Inline::tag(name))))
        .collect();
    page(name, &blocks)
}

/// One value of 1 MiB each, of the kinds whose rules read it whole.
fn long_values() -> Vec<Page> {
    let words = long("a b|c ");
    let lines = long("reel 2\n");
    let slashes = long("\\\\|");
    let letters = long("pass-");
    let name = letters.trim_end_matches('-');
    let attribute = long("pass");
    let cell = |inline| Block::table(1, [Row::new([Cell::new([inline])])]);
    let directive = Block::leaf_directive(name, [Attribute::new(&attribute)], []);
    vec![
        page("code of 1 MiB in a cell", &[cell(Inline::code(&slashes))]),
        page(
            "code math of 1 MiB",
            &[Block::paragraph([Inline::code_math(&words)])],
        ),
        page(
            "indented code of 1 MiB",
            &[Block::indented_code(None, &lines)],
        ),
        page("frontmatter of 1 MiB", &[Block::yaml(&lines)]),
        page("names of 1 MiB", &[directive]),
        page(
            "tag of 1 MiB",
            &[Block::paragraph([Inline::tag(&attribute)])],
        ),
    ]
}
