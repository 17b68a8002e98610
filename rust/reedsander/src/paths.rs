//! The records of a sheet by their paths.

use crate::{Kind, SheetRef};

/// The records of a sheet by their paths, and the paths by their records.
///
/// [`Sheet::paths`](crate::Sheet::paths) and [`SheetRef::paths`] make it once,
/// in time that grows with the number of records alone. A record is then found
/// in time that grows with its path's length alone, however many entries are
/// looked up.
///
/// ```
/// use reedsander::{
///     tree::{Block, Cell, Row},
///     Kind, Sheet,
/// };
///
/// // A table of two columns, whose second row has one cell.
/// let rows = [Row::new([Cell::new([]), Cell::new([])]), Row::new([Cell::new([])])];
/// let sheet = Sheet::new(&[Block::table(2, rows)]);
/// let paths = sheet.paths();
/// for entry in &sheet.check()? {
///     let record = paths.record(entry.path).expect("an entry's path leads to a record");
///     assert_eq!((record, sheet.view().kind(record)), (4, Some(Kind::Row)));
///     assert_eq!(paths.path(record).as_deref(), Some(entry.path));
/// }
/// # Ok::<(), reedsander::Refusal>(())
/// ```
///
/// # Words that are no sheet
///
/// It may be made of any words, also of those that a check refuses. Then a
/// path leads to a record where this one, and each that it stands under, is a
/// block, an item, a row or a cell. From the first record on whose level is 0,
/// or more than one over that of the record before, there are no paths.
#[derive(Clone, PartialEq, Eq, Debug)]
pub struct Paths {
    /// Node 0 is the sheet, and the node of a record its number plus 1.
    places: Vec<Place>,
    /// Where the children of each node begin in `children`, and behind the
    /// last node's where they end.
    starts: Vec<usize>,
    /// The nodes that are counted, those of one parent side by side.
    children: Vec<usize>,
}

/// Where a node stands.
#[derive(Clone, Copy, PartialEq, Eq, Debug, Default)]
struct Place {
    /// The node that it stands under; of the sheet, itself.
    above: usize,
    /// Its own index in paths; None where they do not count it.
    index: Option<usize>,
    is_block: bool,
}

impl Paths {
    pub(crate) fn new(sheet: SheetRef<'_>) -> Self {
        let mut places = vec![Place::default()];
        let mut counts = vec![0];
        // The open nodes, by their levels.
        let mut open = vec![0];
        for (kind, level) in sheet.heads() {
            open.truncate(level);
            let above = open[level - 1];
            let is_counted = kind.is_some_and(Kind::is_counted);
            let index = is_counted.then_some(counts[above]);
            counts[above] += usize::from(is_counted);
            open.push(places.len());
            places.push(Place {
                above,
                index,
                is_block: kind.is_some_and(Kind::is_block),
            });
            counts.push(0);
        }
        let starts = starts(&counts);
        let children = children(&places, &starts);
        Self {
            places,
            starts,
            children,
        }
    }

    /// The record that a path leads to, counted from 0: a block, an item, a
    /// row or a cell. None where the path leads nowhere.
    #[must_use]
    pub fn record(&self, path: &[u32]) -> Option<usize> {
        let mut node = 0;
        for &index in path {
            let children = &self.children[self.starts[node]..self.starts[node + 1]];
            node = *children.get(usize::try_from(index).ok()?)?;
        }
        node.checked_sub(1)
    }

    /// The path that leads to a record. None where there is no such record, or
    /// it is no block, item, row or cell.
    #[must_use]
    pub fn path(&self, record: usize) -> Option<Vec<u32>> {
        self.path_of(record.checked_add(1)?)
    }

    /// The path of the block that a record is, or else stands in: where the
    /// setting machine stops at the record, it stops in that block. None where
    /// there is no such record, or it stands in no block.
    #[must_use]
    pub fn block_path(&self, record: usize) -> Option<Vec<u32>> {
        let mut node = record.checked_add(1)?;
        while !self.places.get(node)?.is_block {
            node = self.places[node].above;
            if node == 0 {
                return None;
            }
        }
        self.path_of(node)
    }

    /// The path that leads to a node. None where there is no such node, or it,
    /// or one that it stands under, is not counted.
    fn path_of(&self, mut node: usize) -> Option<Vec<u32>> {
        let mut path = Vec::new();
        while node > 0 {
            let place = self.places.get(node)?;
            path.push(u32::try_from(place.index?).ok()?);
            node = place.above;
        }
        path.reverse();
        Some(path)
    }
}

/// The sums of the counts before each, and of all.
fn starts(counts: &[usize]) -> Vec<usize> {
    let mut sum = 0;
    let mut starts = vec![0];
    for &count in counts {
        sum += count;
        starts.push(sum);
    }
    starts
}

/// Each node that has an index, at that index behind its parent's start.
fn children(places: &[Place], starts: &[usize]) -> Vec<usize> {
    let mut children = vec![0; starts[places.len()]];
    for (node, place) in places.iter().enumerate() {
        if let Some(index) = place.index {
            children[starts[place.above] + index] = node;
        }
    }
    children
}
