//! Trees of any depth, on a stack of 256 KiB.

use std::thread;

use reedsander::{
    tree::{Block, Delimiter, Inline, Item, Marker},
    Kind, Refusal, Sheet, RECORD_WORDS,
};

const STACK: usize = 256 * 1024;

const DEEP: usize = 100_000;

fn on_small_stack(work: impl FnOnce() + Send + 'static) {
    let thread = thread::Builder::new().stack_size(STACK);
    thread.spawn(work).unwrap().join().unwrap();
}

/// So many quotes around a thematic break, put together from the inside.
fn nested(quotes: usize) -> Block<'static> {
    let inner = Block::thematic_break();
    (0..quotes).fold(inner, |inner, _| Block::block_quote([inner]))
}

/// Kind and level of each record.
fn heads(sheet: &Sheet) -> Vec<(Kind, u32)> {
    let records = sheet.words().chunks(RECORD_WORDS);
    let head = |words: &[u32]| (Kind::from_raw(words[0]).unwrap(), words[1]);
    records.map(head).collect()
}

/// Every record is there, and there are too many of them.
#[test]
fn too_long() {
    on_small_stack(|| {
        let blocks = [nested(DEEP)];
        let sheet = Sheet::new(&blocks);
        drop(blocks);
        let quotes = (1..=DEEP as u32).map(|level| (Kind::BlockQuote, level));
        let last = (Kind::ThematicBreak, DEEP as u32 + 1);
        assert!(quotes.chain([last]).eq(heads(&sheet)));
        assert_eq!(sheet.check().err(), Some(Refusal::LongSheet));
        assert_eq!(sheet.set().err(), Some(Refusal::LongSheet));
        // The same of the words alone, which are no sheet.
        let paths = sheet.paths();
        let path = vec![0; DEEP + 1];
        assert_eq!(paths.record(&path), Some(DEEP));
        assert_eq!(paths.path(DEEP), Some(path.clone()));
        assert_eq!(sheet.record_at(&path), Some(DEEP));
    });
}

/// Few enough records, and too deep.
#[test]
fn too_deep() {
    on_small_stack(|| {
        let sheet = Sheet::new(&[nested(65_000)]);
        assert_eq!(sheet.records(), 65_001);
        let refused = Refusal::BadLevel { record: 64 };
        assert_eq!(sheet.check().err(), Some(refused));
        assert_eq!(sheet.set().err(), Some(refused));
    });
}

/// A tree is cloned, compared and shown as it is dropped.
#[test]
fn other_uses() {
    on_small_stack(|| {
        let tree = nested(DEEP);
        let other = tree.clone();
        assert!(tree == other);
        assert!(tree != nested(DEEP - 1));
        let shown = format!("{tree:?}");
        assert_eq!(shown.matches("BlockQuote").count(), DEEP);
    });
}

/// Emphasis in emphasis, and lists in items.
#[test]
fn other_kinds() {
    on_small_stack(|| {
        let inner = Inline::text("x");
        let emphasis = |inner| Inline::emphasis(Delimiter::Asterisk, [inner]);
        let inline = (0..DEEP).fold(inner, |inner, _| emphasis(inner));
        let inner = Block::paragraph([inline]);
        let list = |inner| Block::tight_list(Marker::DASH, [Item::new([inner])]);
        let block = (0..DEEP).fold(inner, |inner, _| list(inner));
        let sheet = Sheet::new(&[block]);
        assert_eq!(sheet.records(), 3 * DEEP + 2);
        let levels = heads(&sheet).into_iter().map(|(_, level)| level);
        assert!(levels.eq(1..=3 * DEEP as u32 + 2));
    });
}

/// Something before and behind each quote in the quote around it.
#[test]
fn siblings() {
    on_small_stack(|| {
        let around = |inner| {
            let before = [Block::heading(1, [Inline::text("x")]), Block::math_block()];
            let behind = [Block::html_block()];
            Block::block_quote(before.into_iter().chain([inner]).chain(behind))
        };
        let block = (0..DEEP).fold(Block::thematic_break(), |inner, _| around(inner));
        let down = (1..=DEEP as u32).flat_map(|level| {
            [
                (Kind::BlockQuote, level),
                (Kind::Heading, level + 1),
                (Kind::Text, level + 2),
                (Kind::MathBlock, level + 1),
            ]
        });
        let innermost = [(Kind::ThematicBreak, DEEP as u32 + 1)];
        let levels = (2..=DEEP as u32 + 1).rev();
        let up = levels.map(|level| (Kind::HtmlBlock, level));
        let sheet = Sheet::new(&[block, Block::blank_line()]);
        let wanted = down.chain(innermost).chain(up);
        assert!(wanted.chain([(Kind::BlankLine, 1)]).eq(heads(&sheet)));
    });
}
