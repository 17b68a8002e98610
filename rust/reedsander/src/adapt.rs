//! From a `Document` of the notes' own tree to its sheet, and back from a
//! path or a record to the node.
//!
//! This crate does not depend on the crate that defines the notes' tree, so
//! the macro [`adapt!`](crate::adapt!) is told where the tree is, and writes
//! what needs its types: a `Node`, which is a borrowed node of any kind that
//! has a record, and the names `Notes`, `Page`, `Fault` and `Refused` for the
//! types of this module with that `Node`.
//!
//! ```ignore
//! mod notes {
//!     reedsander::adapt!(markdown_syntax::ast);
//! }
//!
//! let notes = notes::Notes::of(&document);
//! match notes.page() {
//!     Ok(notes::Page::Set(marks)) => {
//!         for (node, mark) in marks {
//!             println!("{mark:>3} {}", node.name());
//!         }
//!     }
//!     Ok(notes::Page::Faulty(faults)) => {
//!         for fault in faults {
//!             println!("{fault}: {:?}", fault.node);
//!         }
//!     }
//!     Err(refused) => println!("{refused}"),
//! }
//! ```
//!
//! (The example is not run here, since it needs the notes' tree.)
//!
//! # What a sheet does not hold
//!
//! A word has 32 bits. An item's number, a span's start and end, and the
//! number of a table's alignments that are larger become 4,294,967,295. Such
//! a number is still reported: rule 50 wants at most 999,999,999, rule 49
//! none at all, and no row has so many cells (18). A span is copied and never
//! judged, so an entry of such a node has the span with that number in it.
//!
//! Every other value of a tree is one that a sheet allows: a heading's depth
//! and the dollars of math are 0 to 255, as in the tree, and an escape is any
//! character. So a sheet that is made here is refused for its size alone:
//! over 65,535 records (2), over 16,777,216 bytes of text (3), or a node under
//! 64 others or more (5, with the first such node).
//!
//! # Deep trees
//!
//! Nothing here calls itself for what stands under a node, so a tree of any
//! depth can be adapted on a small stack. What the tree's own crate does may
//! recurse: most trees, when they are dropped.

mod generated;
mod page;

use crate::{
    sheet::Maker,
    tree::{self, Attribute, Block, Cell, HtmlTag, Inline, Item, Row},
    Kind, Sheet,
};

pub use page::{Fault, Page, Refused};

/// A borrowed node of the notes' tree that has a record. The macro
/// [`adapt!`](crate::adapt!) implements it for the `Node` that it writes.
pub trait Node<'a>: Copy {
    /// The root of the notes' tree, which has no record.
    type Document: 'a;

    /// Adds the blocks right under the document, in order, behind what
    /// `under` holds.
    fn top(document: &'a Self::Document, under: &mut Vec<Self>);

    /// The node's record. What stands right under the node is added behind
    /// what `under` holds, in the order of the sheet.
    fn open(self, under: &mut Vec<Self>) -> Record<'a>;

    /// The block right under the document that is the first index of a path.
    fn block_at(document: &'a Self::Document, index: usize) -> Option<Self>;

    /// The block, item, row or cell right under the node that is the next
    /// index of a path.
    fn child_at(self, index: usize) -> Option<Self>;
}

/// A record without its level, made of a node of a [`tree`]; what stands under
/// the node is left out.
#[derive(Clone, PartialEq, Eq, Debug)]
pub struct Record<'a>(tree::Record<'a>);

impl Record<'_> {
    /// The record with this span, or without one.
    #[must_use]
    pub fn at(mut self, span: Option<(u32, u32)>) -> Self {
        self.0.span = span;
        self
    }

    /// Its kind.
    #[must_use]
    pub fn kind(&self) -> Kind {
        self.0.kind
    }

    /// Its span.
    #[must_use]
    pub fn span(&self) -> Option<(u32, u32)> {
        self.0.span
    }
}

/// A record of each type of node.
macro_rules! records {
    ($($node:ident)*) => {$(
        impl<'a> From<$node<'a>> for Record<'a> {
            fn from(node: $node<'a>) -> Self {
                Self(tree::Node::from(node).into_record())
            }
        }
    )*};
}

records! { Block Item Row Cell HtmlTag Attribute Inline }

/// The number as a word; 4,294,967,295 for a larger one.
#[must_use]
pub fn saturated(number: impl TryInto<u32>) -> u32 {
    number.try_into().unwrap_or(u32::MAX)
}

/// A document with its sheet, and with the node of every record.
#[derive(Clone, Debug)]
pub struct Notes<'a, N: Node<'a>> {
    document: &'a N::Document,
    sheet: Sheet,
    /// The node of each record.
    nodes: Vec<N>,
}

impl<'a, N: Node<'a>> Notes<'a, N> {
    /// The notes of a document. Its texts are copied into the sheet's text,
    /// each different one once.
    #[must_use]
    pub fn of(document: &'a N::Document) -> Self {
        let mut maker = Maker::default();
        let mut nodes = Vec::new();
        let mut under = Vec::new();
        N::top(document, &mut under);
        // The next node to be opened is the last one that waits.
        let mut waiting: Vec<(usize, N)> = under.drain(..).rev().map(|node| (1, node)).collect();
        while let Some((level, node)) = waiting.pop() {
            maker.add(level, &node.open(&mut under).0);
            nodes.push(node);
            waiting.extend(under.drain(..).rev().map(|node| (level + 1, node)));
        }
        Self {
            document,
            sheet: maker.sheet,
            nodes,
        }
    }

    /// The document.
    #[must_use]
    pub fn document(&self) -> &'a N::Document {
        self.document
    }

    /// The sheet of the document.
    #[must_use]
    pub fn sheet(&self) -> &Sheet {
        &self.sheet
    }

    /// The sheet alone.
    #[must_use]
    pub fn into_sheet(self) -> Sheet {
        self.sheet
    }

    /// The node of each record, in the order of the records: in that of the
    /// marks, too.
    #[must_use]
    pub fn nodes(&self) -> &[N] {
        &self.nodes
    }

    /// The node of a record: where the setting machine stops, or what a
    /// refusal is about, as a number of any type. None where the sheet has no
    /// such record.
    #[must_use]
    pub fn node(&self, record: impl TryInto<usize>) -> Option<N> {
        self.nodes.get(record.try_into().ok()?).copied()
    }

    /// The block, item, row or cell that an entry's path leads to. None where
    /// it leads nowhere, and for the empty path, which is the document.
    #[must_use]
    pub fn at(&self, path: &[u32]) -> Option<N> {
        let mut indices = path.iter().map(|&index| index as usize);
        let block = N::block_at(self.document, indices.next()?)?;
        indices.try_fold(block, N::child_at)
    }

    /// The page of the document: it is set where its list is empty, and has
    /// its faults otherwise.
    ///
    /// # Errors
    ///
    /// Where the sheet is refused, which only its size can bring about.
    pub fn page(&self) -> Result<Page<N>, Refused<N>> {
        page::page(self)
    }
}

#[cfg(test)]
mod tests {
    use super::*;

    #[test]
    fn words() {
        assert_eq!(saturated(0_u64), 0);
        assert_eq!(saturated(u64::from(u32::MAX)), u32::MAX);
        assert_eq!(saturated(4_294_967_296_u64), u32::MAX);
        assert_eq!(saturated(4_294_967_297_u64), u32::MAX, "and not 1");
        assert_eq!(saturated(usize::MAX), u32::MAX);
    }

    #[test]
    fn spans() {
        let record = Record::from(Block::html_block());
        assert_eq!((record.kind(), record.span()), (Kind::HtmlBlock, None));
        let record = record.at(Some((3, u32::MAX)));
        assert_eq!(record, Block::html_block().at(3, u32::MAX).into());
        assert_eq!(record.at(None), Block::html_block().into());
    }
}
