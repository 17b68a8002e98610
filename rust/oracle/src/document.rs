//! The reference's tree that an accepted sheet holds, and the words of its
//! list.
//!
//! The tree has some fields that no word of a sheet gives. Only dropped
//! messages and the reference's writer read them, so each has a fixed value
//! here, under a comment that begins "No word".

mod blocks;
mod inlines;

use alloc::{string::String, vec::Vec};

use crate::{
    ast::{Block, DirectiveAttribute, Document, Inline, LinkDestinationKind, NodeMeta},
    diagnostic::Diagnostic,
    kept,
    refusal::{self, is_block, is_inline, A, END, FLAG, KIND, LEVEL, RECORD_WORDS, START, TEXTS},
    span::Span,
};

/// The tree that `sheet` holds with its `text`.
///
/// # Panics
///
/// On some sheets that [`refusal`](crate::refusal()) refuses.
pub fn document(sheet: &[u32], text: &[u8]) -> Document {
    let sheet = Sheet::new(sheet, text);
    Document::new(sheet.nodes(&sheet.top).map(Node::block).collect())
}

/// The report of `sheet` with its `text`: the words of each entry of the kept
/// list, in its order.
///
/// # Panics
///
/// On some sheets that [`refusal`](crate::refusal()) refuses.
pub fn list(sheet: &[u32], text: &[u8]) -> Vec<u32> {
    words(&document(sheet, text))
}

/// The report of a document: the words of each entry of the kept list, in its
/// order.
///
/// # Panics
///
/// Where a span or an index does not fit a word.
pub fn words(document: &Document) -> Vec<u32> {
    kept(document)
        .iter()
        .flat_map(|(rule, diagnostic)| entry(*rule, diagnostic))
        .collect()
}

/// "Report entry: rule, span flag, start, end, path length, path." The
/// reference's path is document 01's: its "indices count blocks, items, rows
/// and cells only".
fn entry(rule: u32, diagnostic: &Diagnostic) -> Vec<u32> {
    let word = |size: usize| u32::try_from(size).expect("sizes of a sheet fit a word");
    let [flag, start, end] = match diagnostic.span {
        Some(span) => [1, word(span.start), word(span.end)],
        None => [0; 3],
    };
    let path = &diagnostic.path.as_ref().expect("validation gives paths").0;
    let mut words = Vec::from([rule, flag, start, end, word(path.len())]);
    words.extend(path.iter().map(|&index| word(index)));
    words
}

/// A sheet whose records know their children.
struct Sheet<'a> {
    words: &'a [u32],
    text: &'a [u8],
    /// The records right under the sheet.
    top: Vec<usize>,
    /// The records right under each record.
    children: Vec<Vec<usize>>,
}

impl<'a> Sheet<'a> {
    /// "Parent: nearest earlier record one level up."
    fn new(words: &'a [u32], text: &'a [u8]) -> Self {
        let records = words.len() / RECORD_WORDS;
        let mut top = Vec::new();
        let mut children = vec![Vec::new(); records];
        // The nearest record of each level so far; levels are 1 to 64.
        let mut nearest = [0; 65];
        for record in 0..records {
            let level = refusal::word(words, record, LEVEL) as usize;
            nearest[level] = record;
            if level == 1 {
                top.push(record);
            } else {
                children[nearest[level - 1]].push(record);
            }
        }
        Self {
            words,
            text,
            top,
            children,
        }
    }

    fn nodes<'s>(&'s self, records: &'s [usize]) -> impl Iterator<Item = Node<'s>> {
        records.iter().map(move |&record| Node {
            sheet: self,
            record,
        })
    }
}

/// One record of a sheet.
#[derive(Clone, Copy)]
struct Node<'s> {
    sheet: &'s Sheet<'s>,
    record: usize,
}

impl<'s> Node<'s> {
    fn word(self, field: usize) -> u32 {
        refusal::word(self.sheet.words, self.record, field)
    }

    fn kind(self) -> u32 {
        self.word(KIND)
    }

    fn meta(self) -> NodeMeta {
        let [start, end] = [START, END].map(|field| self.word(field) as usize);
        NodeMeta::new((self.word(FLAG) == 1).then_some(Span::new(start, end)))
    }

    /// The part of the text whose start stands at `field`, and its length
    /// behind.
    fn text(self, field: usize) -> String {
        let [start, length] = [field, field + 1].map(|field| self.word(field) as usize);
        let part = core::str::from_utf8(&self.sheet.text[start..start + length]);
        part.expect("a named part is UTF-8").into()
    }

    fn first(self) -> String {
        self.text(TEXTS[0])
    }

    fn second(self) -> String {
        self.text(TEXTS[1])
    }

    fn children(self) -> impl Iterator<Item = Node<'s>> {
        self.sheet.nodes(&self.sheet.children[self.record])
    }

    /// Its children that are blocks.
    fn blocks(self) -> Vec<Block> {
        let blocks = self.children().filter(|child| is_block(child.kind()));
        blocks.map(Node::block).collect()
    }

    /// Its children that are inlines.
    fn inlines(self) -> Vec<Inline> {
        let inlines = self.children().filter(|child| is_inline(child.kind()));
        inlines.map(Node::inline).collect()
    }

    /// Its children that are attributes.
    fn attributes(self) -> Vec<DirectiveAttribute> {
        let attributes = self.children().filter(|child| child.kind() == 24);
        attributes.map(Node::attribute).collect()
    }

    fn attribute(self) -> DirectiveAttribute {
        DirectiveAttribute {
            name: self.first(),
            // No word.
            value: None,
        }
    }

    /// "destination 0 bare, 1 angle, 2 omitted (definition, link, image)"
    fn destination_kind(self) -> LinkDestinationKind {
        match self.word(A) {
            0 => LinkDestinationKind::Bare,
            1 => LinkDestinationKind::Angle,
            2 => LinkDestinationKind::Omitted,
            other => unreachable!("destination kind {other}"),
        }
    }
}
