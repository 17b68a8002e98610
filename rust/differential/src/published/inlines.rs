//! The inlines of a block, from the elements of cmark-gfm's XML and, where it
//! does not say how they are written, from the source: where that fits what
//! the XML says, and else as they are written most often.

use std::ops::Range;

use oracle::{ast::*, span::Span};

use super::{
    places::Places,
    text::{identifier, pieces, written, Piece, Written},
    xml::{Element, UNKNOWN},
};

/// Reads the inlines of one block.
pub struct Inlines<'s> {
    places: Places<'s>,
}

impl<'s> Inlines<'s> {
    /// Of a block whose inlines have these places.
    pub fn new(places: Places<'s>) -> Self {
        Self { places }
    }

    /// The inlines of elements side by side.
    ///
    /// # Errors
    ///
    /// At an element that is not known.
    pub fn all(&mut self, elements: &[Element]) -> Result<Vec<Inline>, String> {
        let mut all = Vec::new();
        for element in elements {
            let bytes = self.places.bytes(element);
            self.places.begin(bytes.as_ref());
            match element.name.as_str() {
                "text" => all.extend(self.text(&element.text, bytes.clone())),
                _ => all.push(self.one(element, bytes.clone())?),
            }
            self.places.end(element, bytes.as_ref());
        }
        Ok(all)
    }

    /// A text with its escapes and references. cmark-gfm leaves an empty text
    /// where it takes away the spaces before a break; it is none.
    fn text(&self, meant: &str, bytes: Option<Range<usize>>) -> Vec<Inline> {
        let start = bytes.as_ref().map(|bytes| bytes.start);
        let pieces = start.and_then(|_| pieces(self.places.slice(bytes.as_ref()), meant));
        let Some(pieces) = pieces else {
            let whole = Text {
                meta: meta(bytes),
                value: meant.into(),
            };
            return if meant.is_empty() {
                vec![]
            } else {
                vec![whole.into()]
            };
        };
        let mut at = start.unwrap_or(0);
        let inline = |piece: Piece| -> Inline {
            let meta = meta(Some(at..at + piece.bytes()));
            at += piece.bytes();
            match piece {
                Piece::Plain(value) => Text { meta, value }.into(),
                Piece::Escape(value) => Escape { meta, value }.into(),
                Piece::Reference(reference) => CharacterReference { meta, reference }.into(),
            }
        };
        pieces.into_iter().map(inline).collect()
    }

    /// Any element but a text.
    fn one(&mut self, element: &Element, bytes: Option<Range<usize>>) -> Result<Inline, String> {
        let value = element.text.clone();
        Ok(match element.name.as_str() {
            "softbreak" => self.soft_break(),
            "linebreak" => self.line_break(),
            "code" => CodeInline {
                meta: meta(bytes),
                value,
            }
            .into(),
            "html_inline" => HtmlInline {
                meta: meta(bytes),
                value,
            }
            .into(),
            "emph" | "strong" | "strikethrough" => self.emphasis(element, bytes)?,
            "link" => self.link(element, bytes)?,
            "image" => self.image(element, bytes)?,
            UNKNOWN => self.footnote_reference(bytes),
            name => return Err(format!("an inline <{name}>")),
        })
    }

    /// An emphasis, strong or strikethrough; the source has its delimiter.
    fn emphasis(
        &mut self,
        element: &Element,
        bytes: Option<Range<usize>>,
    ) -> Result<Inline, String> {
        let delimiter = match self.places.slice(bytes.as_ref()).starts_with('_') {
            true => EmphasisDelimiter::Underscore,
            false => EmphasisDelimiter::Asterisk,
        };
        let children = self.all(&element.children)?;
        let meta = meta(bytes);
        Ok(match element.name.as_str() {
            "emph" => Emphasis {
                meta,
                delimiter,
                children,
            }
            .into(),
            "strong" => Strong {
                meta,
                delimiter,
                children,
            }
            .into(),
            _ => Delete { meta, children }.into(),
        })
    }

    fn soft_break(&mut self) -> Inline {
        self.places.next_line();
        SoftBreak { meta: meta(None) }.into()
    }

    fn line_break(&mut self) -> Inline {
        let kind = match self.places.next_line() {
            true => LineBreakKind::Backslash,
            false => LineBreakKind::Spaces,
        };
        if kind == LineBreakKind::Backslash {
            self.places.uncounted();
        }
        LineBreak {
            meta: meta(None),
            kind,
        }
        .into()
    }

    /// A link, an autolink or a reference to a definition.
    fn link(&mut self, element: &Element, bytes: Option<Range<usize>>) -> Result<Inline, String> {
        if let Some(autolink) = self.autolink(element, bytes.clone()) {
            return Ok(autolink.into());
        }
        let source = self.places.slice(bytes.as_ref());
        let meta = meta(bytes);
        let children = self.all(&element.children)?;
        let (destination, title) = (destination(element), title(element));
        let destination_kind = match how(source, &destination) {
            How::Destination(kind) => kind,
            How::Reference(kind, label) => {
                let identifier = identifier(&label);
                return Ok(LinkReference {
                    meta,
                    identifier,
                    label,
                    kind,
                    children,
                }
                .into());
            }
        };
        Ok(Link {
            meta,
            destination,
            destination_kind,
            title,
            children,
        }
        .into())
    }

    /// A link that is an autolink: it has no brackets but `<` and `>`, and
    /// leads where its text says.
    fn autolink(&self, link: &Element, bytes: Option<Range<usize>>) -> Option<Autolink> {
        let text = link.children.first().filter(|text| text.name == "text")?;
        let source = self.places.slice(bytes.as_ref());
        let angle = source
            .strip_prefix('<')
            .and_then(|inside| inside.strip_suffix('>'));
        if let Some(inside) = angle {
            let (form, text) = (AutolinkForm::Angle, inside.into());
            return Some(Autolink {
                meta: meta(bytes),
                form,
                text,
            });
        }
        let leads = ["", "http://", "mailto:"].map(|scheme| format!("{scheme}{}", text.text));
        let literal = leads
            .iter()
            .any(|leads| link.attribute("destination") == Some(leads));
        if !literal || self.places.is_behind(text, '[') {
            return None;
        }
        // Its place may begin with the character before it.
        let inside = source.find(&text.text);
        let start = bytes.and_then(|bytes| Some(bytes.start + inside?));
        let meta = meta(start.map(|start| start..start + text.text.len()));
        let (form, text) = (AutolinkForm::Literal, text.text.clone());
        Some(Autolink { meta, form, text })
    }

    /// An image, or one by reference to a definition.
    fn image(&mut self, element: &Element, bytes: Option<Range<usize>>) -> Result<Inline, String> {
        let source = self.places.slice(bytes.as_ref());
        let meta = meta(bytes);
        let alt = self.all(&element.children)?;
        let (destination, title) = (destination(element), title(element));
        let destination_kind = match how(source.strip_prefix('!').unwrap_or(""), &destination) {
            How::Destination(kind) => kind,
            How::Reference(kind, label) => {
                let identifier = identifier(&label);
                return Ok(ImageReference {
                    meta,
                    identifier,
                    label,
                    kind,
                    alt,
                }
                .into());
            }
        };
        Ok(Image {
            meta,
            destination,
            destination_kind,
            title,
            alt,
        }
        .into())
    }

    /// The XML has no label, so it is the source's.
    fn footnote_reference(&self, bytes: Option<Range<usize>>) -> Inline {
        let source = self.places.slice(bytes.as_ref());
        let label = source
            .strip_prefix("[^")
            .and_then(|label| label.strip_suffix(']'));
        let label = label.unwrap_or_default().to_string();
        let identifier = identifier(&label);
        FootnoteReference {
            meta: meta(bytes),
            label,
            identifier,
        }
        .into()
    }
}

fn meta(bytes: Option<Range<usize>>) -> NodeMeta {
    NodeMeta::new(bytes.map(|bytes| Span::new(bytes.start, bytes.end)))
}

fn destination(element: &Element) -> String {
    element.attribute("destination").unwrap_or_default().into()
}

/// cmark-gfm does not tell an empty title from none.
fn title(element: &Element) -> Option<Title> {
    let title = element
        .attribute("title")
        .filter(|title| !title.is_empty())?;
    Some(Title::new(title, LinkTitleKind::DoubleQuote))
}

/// How a link leads to its destination.
enum How {
    Destination(LinkDestinationKind),
    /// By a label.
    Reference(ReferenceKind, String),
}

/// As the source has it; where it has no link, bare, or omitted if it is empty.
fn how(source: &str, destination: &str) -> How {
    use LinkDestinationKind::{Angle, Bare, Omitted};
    let of_label = |kind, label: &str| How::Reference(kind, label.into());
    match written(source) {
        Some(Written::Bare) => How::Destination(Bare),
        Some(Written::Angle) => How::Destination(Angle),
        Some(Written::Omitted) => How::Destination(Omitted),
        Some(Written::Full(label)) => of_label(ReferenceKind::Full, label),
        Some(Written::Collapsed(label)) => of_label(ReferenceKind::Collapsed, label),
        Some(Written::Shortcut(label)) => of_label(ReferenceKind::Shortcut, label),
        None if destination.is_empty() => How::Destination(Omitted),
        None => How::Destination(Bare),
    }
}
