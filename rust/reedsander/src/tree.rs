//! Trees of notes, for [`Sheet::new`](crate::Sheet::new).
//!
//! There is a function for each kind of record: those of [`Block`] and
//! [`Inline`] and `new` of [`Item`], [`Row`], [`Cell`], [`HtmlTag`] and
//! [`Attribute`]. Each takes what its kind may hold, so a tree cannot be put
//! together wrongly; only its size and its depth can be too large, which the
//! checker refuses. A node has a span where `at` gives it one. Texts are
//! borrowed.
//!
//! Trees may be of any depth: nothing that is done with one, dropping it
//! included, goes down by calls, so a small stack does. They are put together
//! in time that grows hardly faster than their size.

use std::{collections::VecDeque, iter, mem};

use crate::Kind;

/// A record of the tree, and how many stand under it, at any depth.
#[derive(Clone, PartialEq, Eq, Debug)]
pub(crate) struct Record<'a> {
    pub(crate) kind: Kind,
    pub(crate) span: Option<(u32, u32)>,
    /// A, B and C.
    pub(crate) values: [u32; 3],
    /// None where the record has no such text.
    pub(crate) texts: [Option<&'a str>; 2],
    pub(crate) under: usize,
}

/// A record and what stands under it.
#[derive(Clone, PartialEq, Eq, Debug)]
pub(crate) struct Node<'a> {
    record: Record<'a>,
    /// All that stands under it, at any depth, in the sheet's order.
    under: VecDeque<Record<'a>>,
}

impl<'a> Node<'a> {
    fn new(kind: Kind) -> Self {
        let record = Record {
            kind,
            span: None,
            values: [0; 3],
            texts: [None; 2],
            under: 0,
        };
        Self {
            record,
            under: VecDeque::new(),
        }
    }

    /// Its record, and all that stand under it, in the sheet's order.
    pub(crate) fn records(&self) -> impl Iterator<Item = &Record<'a>> {
        iter::once(&self.record).chain(&self.under)
    }

    /// Its record alone.
    pub(crate) fn into_record(self) -> Record<'a> {
        self.record
    }

    fn a(mut self, a: u32) -> Self {
        self.record.values[0] = a;
        self
    }

    fn b(mut self, b: u32) -> Self {
        self.record.values[1] = b;
        self
    }

    fn c(mut self, c: u32) -> Self {
        self.record.values[2] = c;
        self
    }

    fn first(mut self, text: &'a str) -> Self {
        self.record.texts[0] = Some(text);
        self
    }

    fn second(mut self, text: &'a str) -> Self {
        self.record.texts[1] = Some(text);
        self
    }

    /// "destination 0 bare, 1 angle, 2 omitted", and its text.
    fn destination(self, index: usize, destination: Destination<'a>) -> Self {
        let (a, text) = match destination {
            Destination::Bare(text) => (0, text),
            Destination::Angle(text) => (1, text),
            Destination::Omitted(text) => (2, text),
        };
        let mut node = self.a(a);
        node.record.texts[index] = Some(text);
        node
    }

    fn under<T: Into<Self>>(mut self, children: impl IntoIterator<Item = T>) -> Self {
        for child in children {
            self.push(child.into());
        }
        self.record.under = self.under.len();
        self
    }

    /// Adds a last child. Of what stands under the two, the shorter is moved,
    /// so that a record is seldom moved in a deep tree, however it is put
    /// together.
    fn push(&mut self, child: Self) {
        if child.under.len() <= self.under.len() {
            self.under.push_back(child.record);
            self.under.extend(child.under);
        } else {
            let before = mem::replace(&mut self.under, child.under);
            self.under.push_front(child.record);
            for record in before.into_iter().rev() {
                self.under.push_front(record);
            }
        }
    }
}

/// The types of nodes, each with `at` where its kind has a span.
macro_rules! nodes {
    ($($(#[$doc:meta])* $name:ident $($at:ident)?;)*) => {$(
        $(#[$doc])*
        #[derive(Clone, PartialEq, Eq, Debug)]
        #[must_use]
        pub struct $name<'a>(pub(crate) Node<'a>);

        impl<'a> From<$name<'a>> for Node<'a> {
            fn from(node: $name<'a>) -> Self {
                node.0
            }
        }

        $(impl $name<'_> {
            /// The node with this span. Spans are copied, never judged.
            pub fn $at(mut self, start: u32, end: u32) -> Self {
                self.0.record.span = Some((start, end));
                self
            }
        })?
    )*};
}

nodes! {
    /// A block.
    Block at;
    /// An inline.
    Inline at;
    /// An item of a list.
    Item at;
    /// A row of a table.
    Row at;
    /// A cell of a row.
    Cell at;
    /// The opening or the closing tag of an HTML container.
    HtmlTag at;
    /// An attribute of a directive, which has no span.
    Attribute;
}

/// Where a link, an image or a definition leads.
#[derive(Clone, Copy, PartialEq, Eq, Debug)]
pub enum Destination<'a> {
    /// Without brackets.
    Bare(&'a str),
    /// In angle brackets.
    Angle(&'a str),
    /// Not written. The record has a text all the same, most often an empty
    /// one: the notes' own tree keeps a destination beside its kind.
    Omitted(&'a str),
}

/// The sign of emphasis and strong.
#[derive(Clone, Copy, PartialEq, Eq, Debug)]
pub enum Delimiter {
    /// `*`
    Asterisk,
    /// `_`
    Underscore,
}

impl From<Delimiter> for u32 {
    fn from(delimiter: Delimiter) -> Self {
        match delimiter {
            Delimiter::Asterisk => 0,
            Delimiter::Underscore => 1,
        }
    }
}

/// How a list is marked. Any delimiter may stand with either sort of list;
/// the constants are those that fit.
#[derive(Clone, Copy, PartialEq, Eq, Debug)]
pub struct Marker {
    /// Whether the list is numbered.
    pub ordered: bool,
    /// The sign of its items.
    pub delimiter: ListDelimiter,
}

impl Marker {
    /// Bullets of `-`.
    pub const DASH: Self = Self::new(false, ListDelimiter::Dash);
    /// Bullets of `*`.
    pub const ASTERISK: Self = Self::new(false, ListDelimiter::Asterisk);
    /// Bullets of `+`.
    pub const PLUS: Self = Self::new(false, ListDelimiter::Plus);
    /// Numbers with `.`.
    pub const PERIOD: Self = Self::new(true, ListDelimiter::Period);
    /// Numbers with `)`.
    pub const PAREN: Self = Self::new(true, ListDelimiter::Paren);

    const fn new(ordered: bool, delimiter: ListDelimiter) -> Self {
        Self { ordered, delimiter }
    }
}

/// The sign of a list's items.
#[derive(Clone, Copy, PartialEq, Eq, Debug)]
pub enum ListDelimiter {
    /// `-`
    Dash,
    /// `*`
    Asterisk,
    /// `+`
    Plus,
    /// `.`
    Period,
    /// `)`
    Paren,
}

impl From<ListDelimiter> for u32 {
    fn from(delimiter: ListDelimiter) -> Self {
        match delimiter {
            ListDelimiter::Dash => 0,
            ListDelimiter::Asterisk => 1,
            ListDelimiter::Plus => 2,
            ListDelimiter::Period => 3,
            ListDelimiter::Paren => 4,
        }
    }
}

impl<'a> Block<'a> {
    /// Kind 1.
    pub fn paragraph(inlines: impl IntoIterator<Item = Inline<'a>>) -> Self {
        Self(Node::new(Kind::Paragraph).under(inlines))
    }

    /// Kind 2.
    pub fn heading(depth: u8, inlines: impl IntoIterator<Item = Inline<'a>>) -> Self {
        Self(Node::new(Kind::Heading).a(depth.into()).under(inlines))
    }

    /// Kind 3.
    pub fn thematic_break() -> Self {
        Self(Node::new(Kind::ThematicBreak))
    }

    /// Kind 4.
    pub fn block_quote(blocks: impl IntoIterator<Item = Block<'a>>) -> Self {
        Self(Node::new(Kind::BlockQuote).under(blocks))
    }

    /// Kind 5.
    pub fn alert(title: Option<&'a str>, blocks: impl IntoIterator<Item = Block<'a>>) -> Self {
        let mut node = Node::new(Kind::Alert)
            .a(title.is_some().into())
            .under(blocks);
        node.record.texts[0] = title;
        Self(node)
    }

    /// Kind 6, tight.
    pub fn tight_list(marker: Marker, items: impl IntoIterator<Item = Item<'a>>) -> Self {
        Self::list(marker, true, items)
    }

    /// Kind 6, loose.
    pub fn loose_list(marker: Marker, items: impl IntoIterator<Item = Item<'a>>) -> Self {
        Self::list(marker, false, items)
    }

    /// Kind 6.
    pub fn list(marker: Marker, tight: bool, items: impl IntoIterator<Item = Item<'a>>) -> Self {
        let node = Node::new(Kind::List).a(marker.ordered.into());
        let node = node.b(marker.delimiter.into()).c(tight.into());
        Self(node.under(items))
    }

    /// Kind 7, fenced.
    pub fn fenced_code(info: Option<&'a str>, value: &'a str) -> Self {
        Self::code(0, info, value)
    }

    /// Kind 7, indented.
    pub fn indented_code(info: Option<&'a str>, value: &'a str) -> Self {
        Self::code(1, info, value)
    }

    fn code(form: u32, info: Option<&'a str>, value: &'a str) -> Self {
        let mut node = Node::new(Kind::CodeBlock).a(form).b(info.is_some().into());
        node.record.texts = [Some(value), info];
        Self(node)
    }

    /// Kind 8.
    pub fn html_block() -> Self {
        Self(Node::new(Kind::HtmlBlock))
    }

    /// Kind 9, of blocks.
    pub fn html_of_blocks(
        opening: HtmlTag<'a>,
        closing: HtmlTag<'a>,
        blocks: impl IntoIterator<Item = Block<'a>>,
    ) -> Self {
        Self(
            Node::new(Kind::HtmlContainer)
                .under([opening, closing])
                .under(blocks),
        )
    }

    /// Kind 9, of inlines.
    pub fn html_of_inlines(
        opening: HtmlTag<'a>,
        closing: HtmlTag<'a>,
        inlines: impl IntoIterator<Item = Inline<'a>>,
    ) -> Self {
        Self(
            Node::new(Kind::HtmlContainer)
                .a(1)
                .under([opening, closing])
                .under(inlines),
        )
    }

    /// Kind 10.
    pub fn definition(identifier: &'a str, destination: Destination<'a>) -> Self {
        let node = Node::new(Kind::Definition).first(identifier);
        Self(node.destination(1, destination))
    }

    /// Kind 11.
    pub fn footnote_definition(
        identifier: &'a str,
        blocks: impl IntoIterator<Item = Block<'a>>,
    ) -> Self {
        Self(
            Node::new(Kind::FootnoteDefinition)
                .first(identifier)
                .under(blocks),
        )
    }

    /// Kind 12, with how many columns it aligns.
    pub fn table(alignments: u32, rows: impl IntoIterator<Item = Row<'a>>) -> Self {
        Self(Node::new(Kind::Table).a(alignments).under(rows))
    }

    /// Kind 13.
    pub fn math_block() -> Self {
        Self(Node::new(Kind::MathBlock))
    }

    /// Kind 14, between `---`.
    pub fn yaml(value: &'a str) -> Self {
        Self(Node::new(Kind::Frontmatter).first(value))
    }

    /// Kind 14, between `+++`.
    pub fn toml(value: &'a str) -> Self {
        Self(Node::new(Kind::Frontmatter).a(1).first(value))
    }

    /// Kind 15.
    pub fn leaf_directive(
        name: &'a str,
        attributes: impl IntoIterator<Item = Attribute<'a>>,
        label: impl IntoIterator<Item = Inline<'a>>,
    ) -> Self {
        Self(
            Node::new(Kind::LeafDirective)
                .first(name)
                .under(attributes)
                .under(label),
        )
    }

    /// Kind 16.
    pub fn container_directive(
        name: &'a str,
        attributes: impl IntoIterator<Item = Attribute<'a>>,
        label: impl IntoIterator<Item = Inline<'a>>,
        blocks: impl IntoIterator<Item = Block<'a>>,
    ) -> Self {
        let node = Node::new(Kind::ContainerDirective)
            .first(name)
            .under(attributes);
        Self(node.under(label).under(blocks))
    }

    /// Kind 17.
    pub fn blank_line() -> Self {
        Self(Node::new(Kind::BlankLine))
    }
}

impl<'a> Item<'a> {
    /// Kind 20, without a check box and without a number.
    pub fn new(blocks: impl IntoIterator<Item = Block<'a>>) -> Self {
        Self(Node::new(Kind::Item).under(blocks))
    }

    /// With a check box, checked or not.
    pub fn checked(self, checked: bool) -> Self {
        Self(self.0.a(1 + u32::from(checked)))
    }

    /// With its own number. An ordered list is numbered on from its first
    /// item's, or from 1 where that has none. A later item's own number changes
    /// no mark; rules 49 and 50 and stops 7 and 8 still look at it.
    pub fn number(self, number: u32) -> Self {
        Self(self.0.b(1).c(number))
    }
}

impl<'a> Row<'a> {
    /// Kind 21.
    pub fn new(cells: impl IntoIterator<Item = Cell<'a>>) -> Self {
        Self(Node::new(Kind::Row).under(cells))
    }
}

impl<'a> Cell<'a> {
    /// Kind 22.
    pub fn new(inlines: impl IntoIterator<Item = Inline<'a>>) -> Self {
        Self(Node::new(Kind::Cell).under(inlines))
    }

    /// A cell of one text.
    pub fn text(value: &'a str) -> Self {
        Self::new([Inline::text(value)])
    }
}

impl<'a> HtmlTag<'a> {
    /// Kind 23: its name, and how it is written.
    pub fn new(name: &'a str, raw: &'a str) -> Self {
        Self(Node::new(Kind::HtmlTag).first(name).second(raw))
    }
}

impl<'a> Attribute<'a> {
    /// Kind 24.
    pub fn new(name: &'a str) -> Self {
        Self(Node::new(Kind::Attribute).first(name))
    }
}

impl<'a> Inline<'a> {
    /// Kind 31.
    pub fn text(value: &'a str) -> Self {
        Self(Node::new(Kind::Text).first(value))
    }

    /// Kind 32.
    pub fn escape(value: char) -> Self {
        Self(Node::new(Kind::Escape).a(value.into()))
    }

    /// Kind 33.
    pub fn character_reference() -> Self {
        Self(Node::new(Kind::CharacterReference))
    }

    /// Kind 34.
    pub fn emphasis(delimiter: Delimiter, inlines: impl IntoIterator<Item = Inline<'a>>) -> Self {
        Self(Node::new(Kind::Emphasis).a(delimiter.into()).under(inlines))
    }

    /// Kind 35.
    pub fn strong(delimiter: Delimiter, inlines: impl IntoIterator<Item = Inline<'a>>) -> Self {
        Self(Node::new(Kind::Strong).a(delimiter.into()).under(inlines))
    }

    /// Kind 36: a strikethrough.
    pub fn delete(inlines: impl IntoIterator<Item = Inline<'a>>) -> Self {
        Self(Node::new(Kind::Delete).under(inlines))
    }

    /// Kind 37.
    pub fn mark(inlines: impl IntoIterator<Item = Inline<'a>>) -> Self {
        Self(Node::new(Kind::Mark).under(inlines))
    }

    /// Kind 38.
    pub fn shortcode() -> Self {
        Self(Node::new(Kind::Shortcode))
    }

    /// Kind 39.
    pub fn code(value: &'a str) -> Self {
        Self(Node::new(Kind::Code).first(value))
    }

    /// Kind 40.
    pub fn link(
        destination: Destination<'a>,
        inlines: impl IntoIterator<Item = Inline<'a>>,
    ) -> Self {
        Self(
            Node::new(Kind::Link)
                .destination(0, destination)
                .under(inlines),
        )
    }

    /// Kind 41.
    pub fn autolink(text: &'a str) -> Self {
        Self(Node::new(Kind::Autolink).first(text))
    }

    /// Kind 42.
    pub fn image(destination: Destination<'a>, alt: impl IntoIterator<Item = Inline<'a>>) -> Self {
        Self(
            Node::new(Kind::Image)
                .destination(0, destination)
                .under(alt),
        )
    }

    /// Kind 43.
    pub fn link_reference(
        identifier: &'a str,
        label: &'a str,
        inlines: impl IntoIterator<Item = Inline<'a>>,
    ) -> Self {
        let node = Node::new(Kind::LinkReference)
            .first(identifier)
            .second(label);
        Self(node.under(inlines))
    }

    /// Kind 44.
    pub fn image_reference(
        identifier: &'a str,
        label: &'a str,
        alt: impl IntoIterator<Item = Inline<'a>>,
    ) -> Self {
        let node = Node::new(Kind::ImageReference)
            .first(identifier)
            .second(label);
        Self(node.under(alt))
    }

    /// Kind 45.
    pub fn html(value: &'a str) -> Self {
        Self(Node::new(Kind::Html).first(value))
    }

    /// Kind 46.
    pub fn soft_break() -> Self {
        Self(Node::new(Kind::SoftBreak))
    }

    /// Kind 47: a hard break that is written as a backslash.
    pub fn backslash_break() -> Self {
        Self(Node::new(Kind::LineBreak))
    }

    /// Kind 47: a hard break that is written as spaces.
    pub fn spaces_break() -> Self {
        Self(Node::new(Kind::LineBreak).a(1))
    }

    /// Kind 48, in a fence of dollars.
    pub fn dollar_math(dollars: u8, value: &'a str) -> Self {
        Self(Node::new(Kind::Math).b(dollars.into()).first(value))
    }

    /// Kind 48, in the code form.
    pub fn code_math(value: &'a str) -> Self {
        Self(Node::new(Kind::Math).a(1).first(value))
    }

    /// Kind 49.
    pub fn footnote_reference(identifier: &'a str, label: &'a str) -> Self {
        Self(
            Node::new(Kind::FootnoteReference)
                .first(identifier)
                .second(label),
        )
    }

    /// Kind 50.
    pub fn inline_footnote(inlines: impl IntoIterator<Item = Inline<'a>>) -> Self {
        Self(Node::new(Kind::InlineFootnote).under(inlines))
    }

    /// Kind 51.
    pub fn wikilink(target: &'a str, label: &'a str) -> Self {
        Self(Node::new(Kind::WikiLink).first(target).second(label))
    }

    /// Kind 52.
    pub fn text_directive(
        name: &'a str,
        attributes: impl IntoIterator<Item = Attribute<'a>>,
        label: impl IntoIterator<Item = Inline<'a>>,
    ) -> Self {
        Self(
            Node::new(Kind::TextDirective)
                .first(name)
                .under(attributes)
                .under(label),
        )
    }

    /// Kind 53.
    pub fn tag(name: &'a str) -> Self {
        Self(Node::new(Kind::Tag).first(name))
    }
}
