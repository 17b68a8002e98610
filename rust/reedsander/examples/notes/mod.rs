//! Three small sheets of grade notes: two that can be set, and one of faults.

use reedsander::{
    tree::{Block, Cell, Destination, Inline, Item, Marker, Row},
    Sheet,
};

/// Each sheet with the name of its file.
pub fn all() -> [(&'static str, Sheet); 3] {
    [
        ("shot-table", shot_table()),
        ("passes", passes()),
        ("faults", faults()),
    ]
}

fn text(value: &str) -> Block<'_> {
    Block::paragraph([Inline::text(value)])
}

fn row<'a>(cells: impl IntoIterator<Item = &'a str>) -> Row<'a> {
    Row::new(cells.into_iter().map(Cell::text))
}

/// A heading, a paragraph and a table of shots.
fn shot_table() -> Sheet {
    Sheet::new(&[
        Block::heading(1, [Inline::text("Reel 3")]),
        text("Printer lights in the order red, green, blue; footage from the start mark."),
        Block::table(
            4,
            [
                row(["shot", "footage", "lights", "look"]),
                row(["41", "112+04", "27 25 30", "dusk, warm"]),
                row(["42", "131+09", "27 25 30", "as 41"]),
                row(["43", "140+00", "24 24 26", "day for night"]),
            ],
        ),
    ])
}

/// Numbered passes that go on from the fourth, one with a footnote, and the
/// footnote.
fn passes() -> Sheet {
    Sheet::new(&[
        Block::heading(1, [Inline::text("Reel 3")]),
        Block::heading(2, [Inline::text("Passes")]),
        Block::tight_list(
            Marker::PERIOD,
            [
                Item::new([text("Density, whole reel.")]).number(4),
                Item::new([Block::paragraph([
                    Inline::text("Balance of shots 41 to 43"),
                    Inline::footnote_reference("leader", "leader"),
                    Inline::text("."),
                ])]),
                Item::new([text("Trims for the archive's print.")]),
            ],
        ),
        Block::footnote_definition("leader", [text("Against the grey of the head leader.")]),
    ])
}

/// A heading of depth 7, a table whose last row is too short, a cell with a
/// line break in it, a bullet item with a number, a link in a link, a
/// paragraph of nothing.
fn faults() -> Sheet {
    let broken = Cell::new([
        Inline::text("dusk"),
        Inline::backslash_break().at(66, 68),
        Inline::text("warm"),
    ]);
    let inner = Inline::link(Destination::Bare("#shot-42"), [Inline::text("42")]);
    let outer = [Inline::text("as shot "), inner.at(131, 145)];
    Sheet::new(&[
        Block::heading(1, [Inline::text("Reel 3")]),
        Block::heading(7, [Inline::text("Shots")]).at(8, 22),
        Block::table(
            2,
            [
                row(["shot", "look"]),
                Row::new([Cell::text("41"), broken]),
                row(["42"]).at(75, 80),
            ],
        ),
        Block::tight_list(
            Marker::DASH,
            [Item::new([text("Density.")]).number(4).at(82, 95)],
        ),
        Block::paragraph([Inline::link(Destination::Bare("#reel-3"), outer)]),
        Block::paragraph([]).at(160, 160),
    ])
}
