//! Both functions in many threads at once, on sheets of their own and on one
//! that is shared.

use std::thread;

use reedsander::{
    tree::{Block, Cell, Destination, Inline, Item, Marker, Row},
    Refusal, Report, Setting, Sheet,
};

/// How often each thread calls.
const ROUNDS: usize = 200;

/// A page with as many faults as its number, of which the last stops the
/// machine; page 0 has none.
fn page(number: usize) -> Sheet {
    let values: Vec<String> = (0..40).map(|at| format!("pass {at} of {number}")).collect();
    let items = values
        .iter()
        .map(|value| Item::new([Block::paragraph([Inline::text(value)])]));
    let list = Block::tight_list(Marker::PERIOD, items);
    let row = Row::new([Cell::text("shot"), Cell::text(&values[0])]);
    let table = Block::table(2, [row]);
    let blank = (1..number).map(|_| Block::definition("", Destination::Omitted("")));
    let depth = if number == 0 { 1 } else { 7 };
    let heading = Block::heading(depth, [Inline::text("Reel 2")]);
    let blocks: Vec<Block<'_>> = [list, table]
        .into_iter()
        .chain(blank)
        .chain([heading])
        .collect();
    Sheet::new(&blocks)
}

type Answers = (
    Result<Report, Refusal>,
    Result<(Setting, Vec<u32>), Refusal>,
);

fn answers(sheet: &Sheet) -> Answers {
    (sheet.check(), sheet.set())
}

#[test]
fn at_once() {
    let pages: Vec<Sheet> = (0..8).map(page).collect();
    let alone: Vec<Answers> = pages.iter().map(answers).collect();
    for (number, (report, setting)) in alone.iter().enumerate() {
        assert_eq!(report.as_ref().unwrap().len(), number);
        assert_eq!(setting.as_ref().unwrap().0.is_ended(), number == 0);
    }
    let (shared, of_shared) = (&pages[7], &alone[7]);
    thread::scope(|scope| {
        for (page, alone) in pages.iter().zip(&alone) {
            scope.spawn(move || {
                for _ in 0..ROUNDS {
                    assert_eq!(answers(page), *alone);
                    assert_eq!(answers(shared), *of_shared);
                }
            });
        }
    });
}
