//! Inlines.

use super::Node;
use crate::{
    ast::{
        Autolink, AutolinkForm, CharacterReference, CodeInline, Delete, Emphasis,
        EmphasisDelimiter, Escape, FootnoteReference, HtmlInline, Image, ImageReference, Inline,
        InlineFootnote, LineBreak, LineBreakKind, Link, LinkReference, Mark, MathInline,
        MathInlineKind, ReferenceKind, Shortcode, SoftBreak, Strong, Tag, Text, TextDirective,
        WikiLink,
    },
    refusal::{A, B},
};
use alloc::string::String;

/// No word. The kind of a reference is read by a dropped message alone.
const REFERENCE: ReferenceKind = ReferenceKind::Full;

impl Node<'_> {
    /// "inlines 31–53 in the order of `Inline`"
    pub(super) fn inline(self) -> Inline {
        match self.kind() {
            31 => self.literal().into(),
            32 => self.escape().into(),
            33 => self.character_reference().into(),
            34 => self.emphasis().into(),
            35 => self.strong().into(),
            36 => self.delete().into(),
            37 => self.mark().into(),
            38 => self.shortcode().into(),
            39 => self.code().into(),
            40 => self.link().into(),
            41 => self.autolink().into(),
            42 => self.image().into(),
            43 => self.link_reference().into(),
            44 => self.image_reference().into(),
            45 => self.html().into(),
            46 => SoftBreak { meta: self.meta() }.into(),
            47 => self.line_break().into(),
            48 => self.math().into(),
            49 => self.footnote_reference().into(),
            50 => self.inline_footnote().into(),
            51 => self.wikilink().into(),
            52 => self.text_directive().into(),
            53 => self.tag().into(),
            other => unreachable!("kind {other} is no inline"),
        }
    }

    fn literal(self) -> Text {
        Text {
            meta: self.meta(),
            value: self.first(),
        }
    }

    fn escape(self) -> Escape {
        Escape {
            meta: self.meta(),
            value: char::from_u32(self.word(A)).expect("a scalar value"),
        }
    }

    fn character_reference(self) -> CharacterReference {
        CharacterReference {
            meta: self.meta(),
            // No word.
            reference: String::new(),
        }
    }

    /// "delimiter 0 asterisk, 1 underscore (emphasis, strong)"
    fn emphasis_delimiter(self) -> EmphasisDelimiter {
        match self.word(A) {
            0 => EmphasisDelimiter::Asterisk,
            _ => EmphasisDelimiter::Underscore,
        }
    }

    fn emphasis(self) -> Emphasis {
        Emphasis {
            meta: self.meta(),
            delimiter: self.emphasis_delimiter(),
            children: self.inlines(),
        }
    }

    fn strong(self) -> Strong {
        Strong {
            meta: self.meta(),
            delimiter: self.emphasis_delimiter(),
            children: self.inlines(),
        }
    }

    fn delete(self) -> Delete {
        Delete {
            meta: self.meta(),
            children: self.inlines(),
        }
    }

    fn mark(self) -> Mark {
        Mark {
            meta: self.meta(),
            children: self.inlines(),
        }
    }

    fn shortcode(self) -> Shortcode {
        Shortcode {
            meta: self.meta(),
            // No word.
            name: String::new(),
        }
    }

    fn code(self) -> CodeInline {
        CodeInline {
            meta: self.meta(),
            value: self.first(),
        }
    }

    fn link(self) -> Link {
        Link {
            meta: self.meta(),
            destination: self.first(),
            destination_kind: self.destination_kind(),
            // No word.
            title: None,
            children: self.inlines(),
        }
    }

    fn autolink(self) -> Autolink {
        Autolink {
            meta: self.meta(),
            // No word.
            form: AutolinkForm::Angle,
            text: self.first(),
        }
    }

    fn image(self) -> Image {
        Image {
            meta: self.meta(),
            destination: self.first(),
            destination_kind: self.destination_kind(),
            // No word.
            title: None,
            alt: self.inlines(),
        }
    }

    fn link_reference(self) -> LinkReference {
        LinkReference {
            meta: self.meta(),
            identifier: self.first(),
            label: self.second(),
            kind: REFERENCE,
            children: self.inlines(),
        }
    }

    fn image_reference(self) -> ImageReference {
        ImageReference {
            meta: self.meta(),
            identifier: self.first(),
            label: self.second(),
            kind: REFERENCE,
            alt: self.inlines(),
        }
    }

    fn html(self) -> HtmlInline {
        HtmlInline {
            meta: self.meta(),
            value: self.first(),
        }
    }

    /// "line break 0 backslash, 1 spaces"
    fn line_break(self) -> LineBreak {
        LineBreak {
            meta: self.meta(),
            kind: match self.word(A) {
                0 => LineBreakKind::Backslash,
                _ => LineBreakKind::Spaces,
            },
        }
    }

    /// "math 0 dollar, 1 code"; "dollars, 0–255 (0 for code math)".
    fn math(self) -> MathInline {
        MathInline {
            meta: self.meta(),
            value: self.first(),
            kind: match self.word(A) {
                0 => MathInlineKind::Dollar {
                    dollars: u8::try_from(self.word(B)).expect("0 to 255 dollars"),
                },
                _ => MathInlineKind::Code,
            },
        }
    }

    fn footnote_reference(self) -> FootnoteReference {
        FootnoteReference {
            meta: self.meta(),
            identifier: self.first(),
            label: self.second(),
        }
    }

    fn inline_footnote(self) -> InlineFootnote {
        InlineFootnote {
            meta: self.meta(),
            children: self.inlines(),
        }
    }

    fn wikilink(self) -> WikiLink {
        WikiLink {
            meta: self.meta(),
            target: self.first(),
            label: self.second(),
            // No word.
            embed: false,
        }
    }

    fn text_directive(self) -> TextDirective {
        TextDirective {
            meta: self.meta(),
            name: self.first(),
            label: self.inlines(),
            attributes: self.attributes(),
        }
    }

    fn tag(self) -> Tag {
        Tag {
            meta: self.meta(),
            name: self.first(),
        }
    }
}
