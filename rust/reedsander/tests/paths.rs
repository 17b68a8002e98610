//! Records by their paths: in sheets, in words that are no sheet, and for many
//! entries.

mod records;

use records::plain;
use reedsander::{
    tree::{Block, Cell, Row},
    Kind, Paths, Rule, Sheet, SheetRef, RECORD_WORDS,
};

/// Numbers that look random (xorshift).
struct Numbers(u64);

impl Numbers {
    fn below(&mut self, limit: u32) -> u32 {
        self.0 ^= self.0 << 13;
        self.0 ^= self.0 >> 7;
        self.0 ^= self.0 << 17;
        (self.0 >> 32) as u32 % limit
    }
}

/// Up to 30 records of kinds that are counted, are not, or are not listed. A
/// few levels are bad, and some words stand behind the last record.
fn words(numbers: &mut Numbers) -> Vec<u32> {
    const KINDS: [u32; 12] = [1, 4, 6, 12, 16, 18, 20, 21, 22, 23, 34, 99];
    let mut words = Vec::new();
    let mut level = 0;
    for _ in 0..numbers.below(31) {
        level = match numbers.below(60) {
            0 => numbers.below(9),
            1 => u32::MAX,
            _ => 1 + numbers.below(level.min(6) + 1),
        };
        let kind = KINDS[numbers.below(12) as usize];
        words.extend(plain(kind, level));
    }
    words.extend(vec![7; numbers.below(12) as usize]);
    words
}

fn kind(words: &[u32], record: usize) -> Option<Kind> {
    Kind::from_raw(words[record * RECORD_WORDS])
}

fn level(words: &[u32], record: usize) -> usize {
    words[record * RECORD_WORDS + 1] as usize
}

/// "Parent: nearest earlier record one level up." None for none, and for
/// level 1.
fn parent(words: &[u32], record: usize) -> Option<usize> {
    let mut earlier = (0..record).rev();
    earlier.find(|&earlier| level(words, earlier) + 1 == level(words, record))
}

/// The path of a record, read slowly.
fn path(words: &[u32], record: usize) -> Option<Vec<u32>> {
    let mut before = 0;
    for earlier in 0..=record {
        if !(1..=before + 1).contains(&level(words, earlier)) {
            return None;
        }
        before = level(words, earlier);
    }
    let is_counted = |record: usize| kind(words, record).is_some_and(Kind::is_counted);
    let mut path = match parent(words, record) {
        Some(parent) => self::path(words, parent)?,
        None => vec![],
    };
    let under = parent(words, record).map_or(0, |parent| parent + 1);
    let siblings = (under..record).filter(|&other| level(words, other) == level(words, record));
    path.push(siblings.filter(|&other| is_counted(other)).count() as u32);
    is_counted(record).then_some(path)
}

/// The path of the block around a record, read slowly.
fn block_path(words: &[u32], record: usize) -> Option<Vec<u32>> {
    let mut around = Some(record);
    while let Some(block) = around {
        if kind(words, block).is_some_and(Kind::is_block) {
            let is_good = path(words, block).is_some() && is_level_good(words, record);
            return path(words, block).filter(|_| is_good);
        }
        around = parent(words, block);
    }
    None
}

/// Whether the levels up to a record are good.
fn is_level_good(words: &[u32], record: usize) -> bool {
    let levels = (0..=record).map(|record| level(words, record));
    let before = std::iter::once(0).chain(levels.clone());
    levels
        .zip(before)
        .all(|(level, before)| (1..=before + 1).contains(&level))
}

/// Sheets or not: what is found is what is read slowly, and what is found in
/// one look is what is found by the index.
#[test]
fn of_any_words() {
    let mut numbers = Numbers(0x9E37_79B9_7F4A_7C15);
    let mut found = [0; 3];
    for _ in 0..4000 {
        let words = words(&mut numbers);
        let sheet = SheetRef::new(&words, b"");
        let paths = sheet.paths();
        for record in 0..sheet.records() {
            let path = path(&words, record);
            assert_eq!(paths.path(record), path, "{words:?} {record}");
            let block = block_path(&words, record);
            assert_eq!(paths.block_path(record), block, "{words:?} {record}");
            assert_eq!(sheet.block_path(record), block);
            found[0] += usize::from(path.is_some());
            found[1] += usize::from(block.is_some());
            if let Some(path) = path {
                assert_eq!(paths.record(&path), Some(record), "{words:?}");
                assert_eq!(sheet.record_at(&path), Some(record), "{words:?}");
            }
        }
        for _ in 0..20 {
            let path: Vec<u32> = (0..numbers.below(5)).map(|_| numbers.below(4)).collect();
            let record = paths.record(&path);
            assert_eq!(sheet.record_at(&path), record, "{words:?} {path:?}");
            found[2] += usize::from(record.is_some());
        }
        nowhere(sheet, &paths);
    }
    assert!(found.iter().all(|&found| found > 1000), "{found:?}");
}

/// What is not there.
fn nowhere(sheet: SheetRef<'_>, paths: &Paths) {
    for path in [&[][..], &[u32::MAX], &[0; 99]] {
        assert_eq!((paths.record(path), sheet.record_at(path)), (None, None));
    }
    for record in [sheet.records(), usize::MAX] {
        assert_eq!((paths.path(record), paths.block_path(record)), (None, None));
        assert_eq!((sheet.block_path(record), sheet.kind(record)), (None, None));
    }
}

/// A table of so many rows, all but the first with a cell too few.
fn bad_rows(count: usize) -> Sheet {
    let cells = |count| (0..count).map(|_| Cell::new([]));
    let first = Row::new(cells(2));
    let others = (0..count).map(|_| Row::new(cells(1)));
    Sheet::new(&[
        Block::thematic_break(),
        Block::table(2, std::iter::once(first).chain(others)),
    ])
}

/// As many entries as rows, each looked up.
#[test]
fn of_many_entries() {
    let sheet = bad_rows(20_000);
    let report = sheet.check().unwrap();
    assert_eq!(report.len(), 20_000);
    let paths = sheet.paths();
    // A rule, a table, a row of two cells; then two records a row.
    for (entry, record) in report.iter().zip((5..).step_by(2)) {
        assert_eq!(entry.rule, Rule::ROW_WIDTH);
        assert_eq!(paths.record(entry.path), Some(record));
        assert_eq!(sheet.view().kind(record), Some(Kind::Row));
        assert_eq!(paths.path(record).as_deref(), Some(entry.path));
    }
}

/// What a sheet made from a tree gives, its words and text alone give too.
#[test]
fn of_words_alone() {
    let made = bad_rows(3);
    let (words, text) = (made.words().to_vec(), made.text().to_vec());
    let lent = SheetRef::new(&words, &text);
    assert_eq!(SheetRef::from(&made), lent);
    assert_eq!((lent.words(), lent.text()), (made.words(), made.text()));
    assert_eq!(lent.records(), made.records());
    assert_eq!(lent.check(), made.check());
    assert_eq!(lent.set(), made.set());
    assert_eq!(lent.paths(), made.paths());
    let mut reports = [[0; 64]; 2];
    let [first, second] = &mut reports;
    assert_eq!(lent.check_into(first), made.check_into(second));
    assert_eq!(first, second);
    let mut marks = [[9; 16]; 2];
    let [first, second] = &mut marks;
    assert_eq!(lent.set_into(first), made.set_into(second));
    assert_eq!(first, second);
    let (setting, _) = lent.set().unwrap();
    let (stop, record) = setting.stop().unwrap();
    let block = lent.block_path(record);
    assert_eq!(
        (block.as_deref(), &block),
        (Some(&[1][..]), &made.block_path(record))
    );
    let report = lent.check().unwrap();
    let mut beside = report
        .iter()
        .filter(|entry| stop.rules().contains(&entry.rule));
    assert!(beside.any(|entry| entry.name() == "table: row width"));
}
