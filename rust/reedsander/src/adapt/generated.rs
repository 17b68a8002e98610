//! The macro that writes what needs the types of the notes' tree.

/// Writes the adapter of a tree of notes, given the path of the module that
/// has its types: `Document`, `Block`, `Inline` and what they hold, as
/// `markdown_syntax::ast` has them. It is called once, in a module of its own:
///
/// ```ignore
/// mod notes {
///     reedsander::adapt!(markdown_syntax::ast);
/// }
/// ```
///
/// It writes these items; the module [`adapt`](mod@crate::adapt) tells what
/// they do, and has an example.
///
/// - `Node`: a borrowed block, item, row, cell, HTML tag, attribute or inline.
///   Two are equal where they are the same node of the same document, however
///   many others look like it.
/// - `Notes`, with `Notes::of(&document)`: [`Notes`](crate::adapt::Notes), the
///   document's sheet, and the node of every record and path.
/// - `Page`, `Fault` and `Refused`: what `Notes::page` answers.
///
/// Every `match` over the tree's types names each variant, and every pattern
/// of a struct names each field, so that a kind of node or a field that is new
/// in the tree does not compile until it is decided here what its record is.
/// The exceptions are `Document`, `Paragraph`, `Heading`, `TableCell` and the
/// leaf and the container directive, which have private fields, and a span,
/// whose type cannot be named through that path.
#[macro_export]
macro_rules! adapt {
    ($($ast:tt)+) => {
        use $($ast)+ as notes_ast;

        $crate::adapt_node!();
        $crate::adapt_open!();
    };
}

/// The part of [`adapt!`](crate::adapt!) that everybody sees: the nodes.
#[doc(hidden)]
#[macro_export]
macro_rules! adapt_node {
    () => {
        /// A document's sheet, and the node of every record and path.
        #[allow(dead_code)]
        pub type Notes<'a> = $crate::adapt::Notes<'a, Node<'a>>;

        /// A page that is set, or its faults.
        #[allow(dead_code)]
        pub type Page<'a> = $crate::adapt::Page<Node<'a>>;

        /// An entry of the list, and its node.
        #[allow(dead_code)]
        pub type Fault<'a> = $crate::adapt::Fault<Node<'a>>;

        /// A refusal, and its node.
        #[allow(dead_code)]
        pub type Refused<'a> = $crate::adapt::Refused<Node<'a>>;

        /// A node of the notes that has a record. Two are equal where they
        /// are the same node of the same document.
        #[derive(Clone, Copy)]
        pub enum Node<'a> {
            /// Kinds 1 to 17.
            Block(&'a notes_ast::Block),
            /// Kind 20.
            Item(&'a notes_ast::ListItem),
            /// Kind 21.
            Row(&'a notes_ast::TableRow),
            /// Kind 22.
            Cell(&'a notes_ast::TableCell),
            /// Kind 23.
            Tag(&'a notes_ast::HtmlTag),
            /// Kind 24.
            Attribute(&'a notes_ast::DirectiveAttribute),
            /// Kinds 31 to 53.
            Inline(&'a notes_ast::Inline),
        }

        #[allow(dead_code)]
        impl<'a> Node<'a> {
            /// What kind of record it has.
            #[must_use]
            pub fn kind(self) -> $crate::Kind {
                self.record().kind()
            }

            /// What its kind is called.
            #[must_use]
            pub fn name(self) -> &'static str {
                self.kind().name()
            }

            /// The span of its record.
            #[must_use]
            pub fn span(self) -> Option<(u32, u32)> {
                self.record().span()
            }

            fn record(self) -> $crate::adapt::Record<'a> {
                $crate::adapt::Node::open(self, &mut Vec::new())
            }

            /// Where it stands in memory.
            fn address(&self) -> *const () {
                match *self {
                    Self::Block(node) => ::std::ptr::from_ref(node).cast(),
                    Self::Item(node) => ::std::ptr::from_ref(node).cast(),
                    Self::Row(node) => ::std::ptr::from_ref(node).cast(),
                    Self::Cell(node) => ::std::ptr::from_ref(node).cast(),
                    Self::Tag(node) => ::std::ptr::from_ref(node).cast(),
                    Self::Attribute(node) => ::std::ptr::from_ref(node).cast(),
                    Self::Inline(node) => ::std::ptr::from_ref(node).cast(),
                }
            }
        }

        impl PartialEq for Node<'_> {
            fn eq(&self, other: &Self) -> bool {
                let same = ::std::mem::discriminant(self) == ::std::mem::discriminant(other);
                same && self.address() == other.address()
            }
        }

        impl Eq for Node<'_> {}

        /// Its kind and its span, and nothing of what stands under it.
        impl ::std::fmt::Debug for Node<'_> {
            fn fmt(&self, formatter: &mut ::std::fmt::Formatter<'_>) -> ::std::fmt::Result {
                formatter.write_str(self.name())?;
                match self.span() {
                    Some((start, end)) => write!(formatter, " at {start}..{end}"),
                    None => Ok(()),
                }
            }
        }

        impl<'a> $crate::adapt::Node<'a> for Node<'a> {
            type Document = notes_ast::Document;

            fn top(document: &'a notes_ast::Document, under: &mut Vec<Self>) {
                open::document(document, under);
            }

            fn open(self, under: &mut Vec<Self>) -> $crate::adapt::Record<'a> {
                match self {
                    Self::Block(node) => open::block(node, under),
                    Self::Item(node) => open::item(node, under),
                    Self::Row(node) => open::row(node, under),
                    Self::Cell(node) => open::cell(node, under),
                    Self::Tag(node) => open::tag(node),
                    Self::Attribute(node) => open::attribute(node),
                    Self::Inline(node) => open::inline(node, under),
                }
            }

            fn block_at(document: &'a notes_ast::Document, index: usize) -> Option<Self> {
                document.children.get(index).map(Self::Block)
            }

            fn child_at(self, index: usize) -> Option<Self> {
                match self {
                    Self::Block(node) => open::child_of_block(node, index),
                    Self::Item(node) => node.children.get(index).map(Self::Block),
                    Self::Row(node) => node.cells.get(index).map(Self::Cell),
                    Self::Cell(_) | Self::Tag(_) | Self::Attribute(_) | Self::Inline(_) => None,
                }
            }
        }
    };
}

/// The part of [`adapt!`](crate::adapt!) that makes records, a function for
/// each struct of the tree. Each adds the nodes under its own to `under`.
#[doc(hidden)]
#[macro_export]
macro_rules! adapt_open {
    () => {
        mod open {
            use super::{notes_ast as ast, Node};
            use $crate::{
                adapt::{saturated, Record},
                tree,
            };

            type Under<'a> = Vec<Node<'a>>;

            /// A record with the span of its node.
            fn record<'a>(meta: &ast::NodeMeta, node: impl Into<Record<'a>>) -> Record<'a> {
                let ast::NodeMeta { span } = meta;
                let words = span
                    .as_ref()
                    .map(|span| (saturated(span.start), saturated(span.end)));
                node.into().at(words)
            }

            pub(super) fn document<'a>(document: &'a ast::Document, under: &mut Under<'a>) {
                let ast::Document {
                    meta: _, children, ..
                } = document;
                blocks(children, under);
            }

            fn blocks<'a>(blocks: &'a [ast::Block], under: &mut Under<'a>) {
                under.extend(blocks.iter().map(Node::Block));
            }

            fn inlines<'a>(inlines: &'a [ast::Inline], under: &mut Under<'a>) {
                under.extend(inlines.iter().map(Node::Inline));
            }

            fn attributes<'a>(attributes: &'a [ast::DirectiveAttribute], under: &mut Under<'a>) {
                under.extend(attributes.iter().map(Node::Attribute));
            }

            pub(super) fn block<'a>(block: &'a ast::Block, under: &mut Under<'a>) -> Record<'a> {
                match block {
                    ast::Block::Paragraph(node) => paragraph(node, under),
                    ast::Block::Heading(node) => heading(node, under),
                    ast::Block::ThematicBreak(node) => thematic_break(node),
                    ast::Block::BlockQuote(node) => block_quote(node, under),
                    ast::Block::Alert(node) => alert(node, under),
                    ast::Block::List(node) => list(node, under),
                    ast::Block::CodeBlock(node) => code_block(node),
                    ast::Block::HtmlBlock(node) => html_block(node),
                    ast::Block::HtmlContainer(node) => html_container(node, under),
                    ast::Block::Definition(node) => definition(node),
                    ast::Block::FootnoteDefinition(node) => footnote_definition(node, under),
                    ast::Block::Table(node) => table(node, under),
                    ast::Block::MathBlock(node) => math_block(node),
                    ast::Block::Frontmatter(node) => frontmatter(node),
                    ast::Block::LeafDirective(node) => leaf_directive(node, under),
                    ast::Block::ContainerDirective(node) => container_directive(node, under),
                    ast::Block::BlankLine(node) => blank_line(node),
                }
            }

            /// The block, item or row of an index under a block.
            pub(super) fn child_of_block(block: &ast::Block, index: usize) -> Option<Node<'_>> {
                let blocks = match block {
                    ast::Block::List(node) => return node.children.get(index).map(Node::Item),
                    ast::Block::Table(node) => return node.rows.get(index).map(Node::Row),
                    ast::Block::BlockQuote(node) => &node.children,
                    ast::Block::Alert(node) => &node.children,
                    ast::Block::FootnoteDefinition(node) => &node.children,
                    ast::Block::ContainerDirective(node) => &node.children,
                    ast::Block::HtmlContainer(node) => match &node.content {
                        ast::HtmlContainerContent::Blocks(blocks) => blocks,
                        ast::HtmlContainerContent::Inlines(_) => return None,
                    },
                    ast::Block::Paragraph(_)
                    | ast::Block::Heading(_)
                    | ast::Block::ThematicBreak(_)
                    | ast::Block::CodeBlock(_)
                    | ast::Block::HtmlBlock(_)
                    | ast::Block::Definition(_)
                    | ast::Block::MathBlock(_)
                    | ast::Block::Frontmatter(_)
                    | ast::Block::LeafDirective(_)
                    | ast::Block::BlankLine(_) => return None,
                };
                blocks.get(index).map(Node::Block)
            }

            fn paragraph<'a>(node: &'a ast::Paragraph, under: &mut Under<'a>) -> Record<'a> {
                let ast::Paragraph { meta, children, .. } = node;
                inlines(children, under);
                record(meta, tree::Block::paragraph([]))
            }

            fn heading<'a>(node: &'a ast::Heading, under: &mut Under<'a>) -> Record<'a> {
                let ast::Heading {
                    meta,
                    depth,
                    children,
                    ..
                } = node;
                inlines(children, under);
                record(meta, tree::Block::heading(*depth, []))
            }

            fn thematic_break(node: &ast::ThematicBreak) -> Record<'_> {
                let ast::ThematicBreak { meta, marker: _ } = node;
                record(meta, tree::Block::thematic_break())
            }

            fn block_quote<'a>(node: &'a ast::BlockQuote, under: &mut Under<'a>) -> Record<'a> {
                let ast::BlockQuote { meta, children } = node;
                blocks(children, under);
                record(meta, tree::Block::block_quote([]))
            }

            fn alert<'a>(node: &'a ast::Alert, under: &mut Under<'a>) -> Record<'a> {
                let ast::Alert {
                    meta,
                    kind: _,
                    title,
                    children,
                } = node;
                blocks(children, under);
                record(meta, tree::Block::alert(title.as_deref(), []))
            }

            fn list<'a>(node: &'a ast::List, under: &mut Under<'a>) -> Record<'a> {
                let ast::List {
                    meta,
                    ordered,
                    delimiter,
                    tight,
                    children,
                } = node;
                under.extend(children.iter().map(Node::Item));
                let marker = tree::Marker {
                    ordered: *ordered,
                    delimiter: match delimiter {
                        ast::ListDelimiter::Dash => tree::ListDelimiter::Dash,
                        ast::ListDelimiter::Asterisk => tree::ListDelimiter::Asterisk,
                        ast::ListDelimiter::Plus => tree::ListDelimiter::Plus,
                        ast::ListDelimiter::Period => tree::ListDelimiter::Period,
                        ast::ListDelimiter::Paren => tree::ListDelimiter::Paren,
                    },
                };
                record(meta, tree::Block::list(marker, *tight, []))
            }

            pub(super) fn item<'a>(node: &'a ast::ListItem, under: &mut Under<'a>) -> Record<'a> {
                let ast::ListItem {
                    meta,
                    checked,
                    number,
                    children,
                } = node;
                blocks(children, under);
                let mut item = tree::Item::new([]);
                if let Some(checked) = checked {
                    item = item.checked(*checked);
                }
                if let Some(number) = number {
                    item = item.number(saturated(*number));
                }
                record(meta, item)
            }

            fn code_block(node: &ast::CodeBlock) -> Record<'_> {
                let ast::CodeBlock {
                    meta,
                    kind,
                    info,
                    value,
                } = node;
                let info = info.as_deref();
                let code = match kind {
                    ast::CodeBlockKind::Fenced {
                        marker: _,
                        length: _,
                    } => tree::Block::fenced_code(info, value),
                    ast::CodeBlockKind::Indented => tree::Block::indented_code(info, value),
                };
                record(meta, code)
            }

            fn html_block(node: &ast::HtmlBlock) -> Record<'_> {
                let ast::HtmlBlock { meta, value: _ } = node;
                record(meta, tree::Block::html_block())
            }

            fn html_container<'a>(
                node: &'a ast::HtmlContainer,
                under: &mut Under<'a>,
            ) -> Record<'a> {
                let ast::HtmlContainer {
                    meta,
                    opening,
                    content,
                    closing,
                } = node;
                under.extend([Node::Tag(opening), Node::Tag(closing)]);
                let [opening, closing] = [opening, closing].map(tree_tag);
                let container = match content {
                    ast::HtmlContainerContent::Blocks(children) => {
                        blocks(children, under);
                        tree::Block::html_of_blocks(opening, closing, [])
                    }
                    ast::HtmlContainerContent::Inlines(children) => {
                        inlines(children, under);
                        tree::Block::html_of_inlines(opening, closing, [])
                    }
                };
                record(meta, container)
            }

            pub(super) fn tag(node: &ast::HtmlTag) -> Record<'_> {
                let ast::HtmlTag {
                    meta,
                    name: _,
                    raw: _,
                } = node;
                record(meta, tree_tag(node))
            }

            fn tree_tag(node: &ast::HtmlTag) -> tree::HtmlTag<'_> {
                let ast::HtmlTag { meta: _, name, raw } = node;
                tree::HtmlTag::new(name, raw)
            }

            /// How a destination is written, and its text.
            fn destination<'a>(
                kind: &ast::LinkDestinationKind,
                text: &'a str,
            ) -> tree::Destination<'a> {
                match kind {
                    ast::LinkDestinationKind::Bare => tree::Destination::Bare(text),
                    ast::LinkDestinationKind::Angle => tree::Destination::Angle(text),
                    ast::LinkDestinationKind::Omitted => tree::Destination::Omitted(text),
                }
            }

            fn definition(node: &ast::Definition) -> Record<'_> {
                let ast::Definition {
                    meta,
                    label: _,
                    identifier,
                    destination: text,
                    destination_kind,
                    title: _,
                } = node;
                let destination = destination(destination_kind, text);
                record(meta, tree::Block::definition(identifier, destination))
            }

            fn footnote_definition<'a>(
                node: &'a ast::FootnoteDefinition,
                under: &mut Under<'a>,
            ) -> Record<'a> {
                let ast::FootnoteDefinition {
                    meta,
                    label: _,
                    identifier,
                    children,
                } = node;
                blocks(children, under);
                record(meta, tree::Block::footnote_definition(identifier, []))
            }

            fn table<'a>(node: &'a ast::Table, under: &mut Under<'a>) -> Record<'a> {
                let ast::Table {
                    meta,
                    alignments,
                    rows,
                } = node;
                under.extend(rows.iter().map(Node::Row));
                record(meta, tree::Block::table(saturated(alignments.len()), []))
            }

            pub(super) fn row<'a>(node: &'a ast::TableRow, under: &mut Under<'a>) -> Record<'a> {
                let ast::TableRow { meta, cells } = node;
                under.extend(cells.iter().map(Node::Cell));
                record(meta, tree::Row::new([]))
            }

            pub(super) fn cell<'a>(node: &'a ast::TableCell, under: &mut Under<'a>) -> Record<'a> {
                let ast::TableCell { meta, children, .. } = node;
                inlines(children, under);
                record(meta, tree::Cell::new([]))
            }

            fn math_block(node: &ast::MathBlock) -> Record<'_> {
                let ast::MathBlock { meta, value: _ } = node;
                record(meta, tree::Block::math_block())
            }

            fn frontmatter(node: &ast::Frontmatter) -> Record<'_> {
                let ast::Frontmatter { meta, kind, value } = node;
                let block = match kind {
                    ast::FrontmatterKind::Yaml => tree::Block::yaml(value),
                    ast::FrontmatterKind::Toml => tree::Block::toml(value),
                };
                record(meta, block)
            }

            fn leaf_directive<'a>(
                node: &'a ast::LeafDirective,
                under: &mut Under<'a>,
            ) -> Record<'a> {
                let ast::LeafDirective {
                    meta,
                    name,
                    label,
                    attributes: named,
                    ..
                } = node;
                attributes(named, under);
                inlines(label, under);
                record(meta, tree::Block::leaf_directive(name, [], []))
            }

            fn container_directive<'a>(
                node: &'a ast::ContainerDirective,
                under: &mut Under<'a>,
            ) -> Record<'a> {
                let ast::ContainerDirective {
                    meta,
                    name,
                    label,
                    attributes: named,
                    children,
                    ..
                } = node;
                attributes(named, under);
                inlines(label, under);
                blocks(children, under);
                record(meta, tree::Block::container_directive(name, [], [], []))
            }

            pub(super) fn attribute(node: &ast::DirectiveAttribute) -> Record<'_> {
                let ast::DirectiveAttribute { name, value: _ } = node;
                tree::Attribute::new(name).into()
            }

            fn blank_line(node: &ast::BlankLine) -> Record<'_> {
                let ast::BlankLine { meta } = node;
                record(meta, tree::Block::blank_line())
            }

            pub(super) fn inline<'a>(inline: &'a ast::Inline, under: &mut Under<'a>) -> Record<'a> {
                match inline {
                    ast::Inline::Text(node) => text(node),
                    ast::Inline::Escape(node) => escape(node),
                    ast::Inline::CharacterReference(node) => character_reference(node),
                    ast::Inline::Emphasis(node) => emphasis(node, under),
                    ast::Inline::Strong(node) => strong(node, under),
                    ast::Inline::Delete(node) => delete(node, under),
                    ast::Inline::Mark(node) => mark(node, under),
                    ast::Inline::Shortcode(node) => shortcode(node),
                    ast::Inline::Code(node) => code(node),
                    ast::Inline::Link(node) => link(node, under),
                    ast::Inline::Autolink(node) => autolink(node),
                    ast::Inline::Image(node) => image(node, under),
                    ast::Inline::LinkReference(node) => link_reference(node, under),
                    ast::Inline::ImageReference(node) => image_reference(node, under),
                    ast::Inline::Html(node) => html(node),
                    ast::Inline::SoftBreak(node) => soft_break(node),
                    ast::Inline::LineBreak(node) => line_break(node),
                    ast::Inline::Math(node) => math(node),
                    ast::Inline::FootnoteReference(node) => footnote_reference(node),
                    ast::Inline::InlineFootnote(node) => inline_footnote(node, under),
                    ast::Inline::WikiLink(node) => wikilink(node),
                    ast::Inline::TextDirective(node) => text_directive(node, under),
                    ast::Inline::Tag(node) => hash_tag(node),
                }
            }

            fn text(node: &ast::Text) -> Record<'_> {
                let ast::Text { meta, value } = node;
                record(meta, tree::Inline::text(value))
            }

            fn escape(node: &ast::Escape) -> Record<'_> {
                let ast::Escape { meta, value } = node;
                record(meta, tree::Inline::escape(*value))
            }

            fn character_reference(node: &ast::CharacterReference) -> Record<'_> {
                let ast::CharacterReference { meta, reference: _ } = node;
                record(meta, tree::Inline::character_reference())
            }

            fn delimiter(delimiter: &ast::EmphasisDelimiter) -> tree::Delimiter {
                match delimiter {
                    ast::EmphasisDelimiter::Asterisk => tree::Delimiter::Asterisk,
                    ast::EmphasisDelimiter::Underscore => tree::Delimiter::Underscore,
                }
            }

            fn emphasis<'a>(node: &'a ast::Emphasis, under: &mut Under<'a>) -> Record<'a> {
                let ast::Emphasis {
                    meta,
                    delimiter: sign,
                    children,
                } = node;
                inlines(children, under);
                record(meta, tree::Inline::emphasis(delimiter(sign), []))
            }

            fn strong<'a>(node: &'a ast::Strong, under: &mut Under<'a>) -> Record<'a> {
                let ast::Strong {
                    meta,
                    delimiter: sign,
                    children,
                } = node;
                inlines(children, under);
                record(meta, tree::Inline::strong(delimiter(sign), []))
            }

            fn delete<'a>(node: &'a ast::Delete, under: &mut Under<'a>) -> Record<'a> {
                let ast::Delete { meta, children } = node;
                inlines(children, under);
                record(meta, tree::Inline::delete([]))
            }

            fn mark<'a>(node: &'a ast::Mark, under: &mut Under<'a>) -> Record<'a> {
                let ast::Mark { meta, children } = node;
                inlines(children, under);
                record(meta, tree::Inline::mark([]))
            }

            fn shortcode(node: &ast::Shortcode) -> Record<'_> {
                let ast::Shortcode { meta, name: _ } = node;
                record(meta, tree::Inline::shortcode())
            }

            fn code(node: &ast::CodeInline) -> Record<'_> {
                let ast::CodeInline { meta, value } = node;
                record(meta, tree::Inline::code(value))
            }

            fn link<'a>(node: &'a ast::Link, under: &mut Under<'a>) -> Record<'a> {
                let ast::Link {
                    meta,
                    destination: text,
                    destination_kind,
                    title: _,
                    children,
                } = node;
                inlines(children, under);
                record(
                    meta,
                    tree::Inline::link(destination(destination_kind, text), []),
                )
            }

            fn autolink(node: &ast::Autolink) -> Record<'_> {
                let ast::Autolink {
                    meta,
                    form: _,
                    text,
                } = node;
                record(meta, tree::Inline::autolink(text))
            }

            fn image<'a>(node: &'a ast::Image, under: &mut Under<'a>) -> Record<'a> {
                let ast::Image {
                    meta,
                    destination: text,
                    destination_kind,
                    title: _,
                    alt,
                } = node;
                inlines(alt, under);
                record(
                    meta,
                    tree::Inline::image(destination(destination_kind, text), []),
                )
            }

            fn link_reference<'a>(
                node: &'a ast::LinkReference,
                under: &mut Under<'a>,
            ) -> Record<'a> {
                let ast::LinkReference {
                    meta,
                    identifier,
                    label,
                    kind: _,
                    children,
                } = node;
                inlines(children, under);
                record(meta, tree::Inline::link_reference(identifier, label, []))
            }

            fn image_reference<'a>(
                node: &'a ast::ImageReference,
                under: &mut Under<'a>,
            ) -> Record<'a> {
                let ast::ImageReference {
                    meta,
                    identifier,
                    label,
                    kind: _,
                    alt,
                } = node;
                inlines(alt, under);
                record(meta, tree::Inline::image_reference(identifier, label, []))
            }

            fn html(node: &ast::HtmlInline) -> Record<'_> {
                let ast::HtmlInline { meta, value } = node;
                record(meta, tree::Inline::html(value))
            }

            fn soft_break(node: &ast::SoftBreak) -> Record<'_> {
                let ast::SoftBreak { meta } = node;
                record(meta, tree::Inline::soft_break())
            }

            fn line_break(node: &ast::LineBreak) -> Record<'_> {
                let ast::LineBreak { meta, kind } = node;
                let inline = match kind {
                    ast::LineBreakKind::Backslash => tree::Inline::backslash_break(),
                    ast::LineBreakKind::Spaces => tree::Inline::spaces_break(),
                };
                record(meta, inline)
            }

            fn math(node: &ast::MathInline) -> Record<'_> {
                let ast::MathInline { meta, value, kind } = node;
                let inline = match kind {
                    ast::MathInlineKind::Dollar { dollars } => {
                        tree::Inline::dollar_math(*dollars, value)
                    }
                    ast::MathInlineKind::Code => tree::Inline::code_math(value),
                };
                record(meta, inline)
            }

            fn footnote_reference(node: &ast::FootnoteReference) -> Record<'_> {
                let ast::FootnoteReference {
                    meta,
                    label,
                    identifier,
                } = node;
                record(meta, tree::Inline::footnote_reference(identifier, label))
            }

            fn inline_footnote<'a>(
                node: &'a ast::InlineFootnote,
                under: &mut Under<'a>,
            ) -> Record<'a> {
                let ast::InlineFootnote { meta, children } = node;
                inlines(children, under);
                record(meta, tree::Inline::inline_footnote([]))
            }

            fn wikilink(node: &ast::WikiLink) -> Record<'_> {
                let ast::WikiLink {
                    meta,
                    target,
                    label,
                    embed: _,
                } = node;
                record(meta, tree::Inline::wikilink(target, label))
            }

            fn text_directive<'a>(
                node: &'a ast::TextDirective,
                under: &mut Under<'a>,
            ) -> Record<'a> {
                let ast::TextDirective {
                    meta,
                    name,
                    label,
                    attributes: named,
                } = node;
                attributes(named, under);
                inlines(label, under);
                record(meta, tree::Inline::text_directive(name, [], []))
            }

            fn hash_tag(node: &ast::Tag) -> Record<'_> {
                let ast::Tag { meta, name } = node;
                record(meta, tree::Inline::tag(name))
            }
        }
    };
}
