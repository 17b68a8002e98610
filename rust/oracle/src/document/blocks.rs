//! Blocks, and the items, rows, cells and tags under them.

use super::Node;
use crate::{
    ast::{
        Alert, AlertKind, BlankLine, Block, BlockQuote, CodeBlock, CodeBlockKind,
        ContainerDirective, Definition, FenceMarker, FootnoteDefinition, Frontmatter,
        FrontmatterKind, Heading, HtmlBlock, HtmlContainer, HtmlContainerContent, HtmlTag,
        LeafDirective, List, ListDelimiter, ListItem, MathBlock, Paragraph, Table, TableAlignment,
        TableCell, TableRow, ThematicBreak, ThematicBreakMarker,
    },
    refusal::{A, B, C},
};
use alloc::string::String;

/// A sheet has at most 65,535 records, so no row has as many cells as this.
const MOST_ALIGNMENTS: u32 = 65_536;

impl Node<'_> {
    /// "Blocks 1–17 in the order of `Block` in `src/ast.rs`".
    pub(super) fn block(self) -> Block {
        match self.kind() {
            1 => self.paragraph().into(),
            2 => self.heading().into(),
            3 => self.thematic_break().into(),
            4 => self.block_quote().into(),
            5 => self.alert().into(),
            6 => self.list().into(),
            7 => self.code_block().into(),
            8 => self.html_block().into(),
            9 => self.html_container().into(),
            10 => self.definition().into(),
            11 => self.footnote_definition().into(),
            12 => self.table().into(),
            13 => self.math_block().into(),
            14 => self.frontmatter().into(),
            15 => self.leaf_directive().into(),
            16 => self.container_directive().into(),
            17 => BlankLine { meta: self.meta() }.into(),
            other => unreachable!("kind {other} is no block"),
        }
    }

    fn paragraph(self) -> Paragraph {
        Paragraph {
            meta: self.meta(),
            // No word for its source.
            ..Paragraph::new(self.inlines())
        }
    }

    fn heading(self) -> Heading {
        let depth = u8::try_from(self.word(A)).expect("a heading's depth is 0 to 255");
        Heading {
            meta: self.meta(),
            // No word for its source.
            ..Heading::new(depth, self.inlines())
        }
    }

    fn thematic_break(self) -> ThematicBreak {
        ThematicBreak {
            meta: self.meta(),
            // No word.
            marker: ThematicBreakMarker::Dash,
        }
    }

    fn block_quote(self) -> BlockQuote {
        BlockQuote {
            meta: self.meta(),
            children: self.blocks(),
        }
    }

    fn alert(self) -> Alert {
        Alert {
            meta: self.meta(),
            // No word.
            kind: AlertKind::Note,
            title: (self.word(A) == 1).then(|| self.first()),
            children: self.blocks(),
        }
    }

    fn list(self) -> List {
        List {
            meta: self.meta(),
            ordered: self.word(A) == 1,
            delimiter: self.list_delimiter(),
            tight: self.word(C) == 1,
            children: self.children().map(Node::item).collect(),
        }
    }

    /// "list delimiter 0–4 in source order"
    fn list_delimiter(self) -> ListDelimiter {
        match self.word(B) {
            0 => ListDelimiter::Dash,
            1 => ListDelimiter::Asterisk,
            2 => ListDelimiter::Plus,
            3 => ListDelimiter::Period,
            4 => ListDelimiter::Paren,
            other => unreachable!("list delimiter {other}"),
        }
    }

    /// "item checked 0 none, 1 false, 2 true"; "number present", "item number".
    fn item(self) -> ListItem {
        ListItem {
            meta: self.meta(),
            checked: match self.word(A) {
                0 => None,
                checked => Some(checked == 2),
            },
            number: (self.word(B) == 1).then(|| self.word(C).into()),
            children: self.blocks(),
        }
    }

    fn code_block(self) -> CodeBlock {
        CodeBlock {
            meta: self.meta(),
            kind: match self.word(A) {
                // No words for marker and length.
                0 => CodeBlockKind::Fenced {
                    marker: FenceMarker::Backtick,
                    length: 3,
                },
                _ => CodeBlockKind::Indented,
            },
            info: (self.word(B) == 1).then(|| self.second()),
            value: self.first(),
        }
    }

    fn html_block(self) -> HtmlBlock {
        HtmlBlock {
            meta: self.meta(),
            // No word.
            value: String::new(),
        }
    }

    /// "HTML container: opening tag, closing tag, content of its sort."
    fn html_container(self) -> HtmlContainer {
        let mut tags = self.children().map(Node::html_tag);
        HtmlContainer {
            meta: self.meta(),
            opening: tags.next().expect("an opening tag"),
            closing: tags.next().expect("a closing tag"),
            content: match self.word(A) {
                0 => HtmlContainerContent::Blocks(self.blocks()),
                _ => HtmlContainerContent::Inlines(self.inlines()),
            },
        }
    }

    fn html_tag(self) -> HtmlTag {
        HtmlTag {
            meta: self.meta(),
            name: self.first(),
            raw: self.second(),
        }
    }

    fn definition(self) -> Definition {
        Definition {
            meta: self.meta(),
            // No word.
            label: String::new(),
            identifier: self.first(),
            destination: self.second(),
            destination_kind: self.destination_kind(),
            // No word.
            title: None,
        }
    }

    fn footnote_definition(self) -> FootnoteDefinition {
        FootnoteDefinition {
            meta: self.meta(),
            // No word.
            label: String::new(),
            identifier: self.first(),
            children: self.blocks(),
        }
    }

    /// Only the number of alignments is judged, against a row's width, so
    /// what is more than any width needs no room.
    fn table(self) -> Table {
        let alignments = self.word(A).min(MOST_ALIGNMENTS) as usize;
        Table {
            meta: self.meta(),
            // No word for which alignment.
            alignments: vec![TableAlignment::None; alignments],
            rows: self.children().map(Node::row).collect(),
        }
    }

    fn row(self) -> TableRow {
        TableRow {
            meta: self.meta(),
            cells: self.children().map(Node::cell).collect(),
        }
    }

    fn cell(self) -> TableCell {
        TableCell {
            meta: self.meta(),
            // No word for its source.
            ..TableCell::new(self.inlines())
        }
    }

    fn math_block(self) -> MathBlock {
        MathBlock {
            meta: self.meta(),
            // No word.
            value: String::new(),
        }
    }

    fn frontmatter(self) -> Frontmatter {
        Frontmatter {
            meta: self.meta(),
            kind: match self.word(A) {
                0 => FrontmatterKind::Yaml,
                _ => FrontmatterKind::Toml,
            },
            value: self.first(),
        }
    }

    fn leaf_directive(self) -> LeafDirective {
        LeafDirective {
            meta: self.meta(),
            label: self.inlines(),
            attributes: self.attributes(),
            // No word for its source.
            ..LeafDirective::new(self.first())
        }
    }

    fn container_directive(self) -> ContainerDirective {
        ContainerDirective {
            meta: self.meta(),
            label: self.inlines(),
            attributes: self.attributes(),
            // No word for its source.
            ..ContainerDirective::new(self.first(), self.blocks())
        }
    }
}
