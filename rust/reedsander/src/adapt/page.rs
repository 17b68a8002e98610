//! What goes to the setting room: a page that is set, or its faults.

use std::{error::Error, fmt};

use super::{Node, Notes};
use crate::{Entry, Refusal, Report, Rule, Setting};

/// A checked document, ready to be set, or with what is wrong with it.
#[derive(Clone, PartialEq, Eq, Debug)]
pub enum Page<N> {
    /// The list is empty: each node with its mark, in the order of the sheet.
    /// A heading's mark is its depth, a cell's its column from 1, that of an
    /// item of an ordered list its number, counted on from the first item's,
    /// and every other 0.
    Set(Vec<(N, u32)>),
    /// The entries of the list in their order, each with its node. Nothing
    /// was set.
    Faulty(Vec<Fault<N>>),
}

/// An entry of the list, and the block, item, row or cell where it belongs.
#[derive(Clone, PartialEq, Eq, Hash, Debug)]
#[non_exhaustive]
pub struct Fault<N> {
    /// The rule that is not kept; see [`Entry::rule`].
    pub rule: Rule,
    /// The span of what is reported; see [`Entry::span`].
    pub span: Option<(u32, u32)>,
    /// The way from the document down to the node.
    pub path: Vec<u32>,
    /// Where the path leads.
    pub node: N,
}

impl<N> Fault<N> {
    fn new(entry: Entry<'_>, node: N) -> Self {
        Self {
            rule: entry.rule,
            span: entry.span,
            path: entry.path.to_vec(),
            node,
        }
    }

    /// The entry alone.
    #[must_use]
    pub fn entry(&self) -> Entry<'_> {
        Entry {
            rule: self.rule,
            span: self.span,
            path: &self.path,
        }
    }
}

/// For people, as the entry is shown.
impl<N> fmt::Display for Fault<N> {
    fn fmt(&self, formatter: &mut fmt::Formatter<'_>) -> fmt::Result {
        self.entry().fmt(formatter)
    }
}

/// A document whose sheet is refused, and the node that the refusal is about,
/// where it is about one.
#[derive(Clone, Copy, PartialEq, Eq, Hash, Debug)]
pub struct Refused<N> {
    /// Why, and the record.
    pub refusal: Refusal,
    /// The record's node.
    pub node: Option<N>,
}

/// For people, as the refusal is shown.
impl<N> fmt::Display for Refused<N> {
    fn fmt(&self, formatter: &mut fmt::Formatter<'_>) -> fmt::Result {
        self.refusal.fmt(formatter)
    }
}

impl<N: fmt::Debug> Error for Refused<N> {}

/// The page of the notes. The setting machine comes to the end of every sheet
/// whose list is empty.
pub(super) fn page<'a, N: Node<'a>>(notes: &Notes<'a, N>) -> Result<Page<N>, Refused<N>> {
    let refused = |refusal: Refusal| Refused {
        refusal,
        node: refusal.record().and_then(|record| notes.node(record)),
    };
    let report = notes.sheet.check().map_err(refused)?;
    if !report.is_empty() {
        return Ok(Page::Faulty(faults(notes, &report)));
    }
    let (setting, marks) = notes.sheet.set().map_err(refused)?;
    assert!(
        matches!(setting, Setting::Ended { .. }),
        "the list is empty, but: {setting}"
    );
    Ok(Page::Set(notes.nodes.iter().copied().zip(marks).collect()))
}

fn faults<'a, N: Node<'a>>(notes: &Notes<'a, N>, report: &Report) -> Vec<Fault<N>> {
    let fault = |entry: Entry<'_>| {
        let node = notes.at(entry.path).expect("a path of this document");
        Fault::new(entry, node)
    };
    report.entries().map(fault).collect()
}
