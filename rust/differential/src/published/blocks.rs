//! The document of a tree of cmark-gfm's, with the blank lines of its source.

use std::ops::Range;

use oracle::ast::*;

use super::{
    inlines::Inlines,
    places::Places,
    source::Source,
    text::identifier,
    xml::{Element, Place, UNKNOWN},
};

/// The document whose tree cmark-gfm made of the source. A footnote's
/// definition, which it puts behind all else, stands where the source has it.
///
/// # Errors
///
/// At an element that is not known.
pub fn document(root: &Element, source: &Source<'_>) -> Result<Document, String> {
    let maker = Maker { source };
    let mut elements: Vec<&Element> = root.children.iter().collect();
    elements.sort_by_key(|element| element.places().map(|(first, _)| first));
    let ends = Ends {
        floor: 0,
        last: source.lines(),
    };
    let blocks = maker.blocks(&elements, 0, Some(ends))?;
    Ok(Document::new(blocks))
}

/// What a container has on its first lines and its last that are blank: the
/// line before its first, and its last.
struct Ends {
    floor: usize,
    last: usize,
}

struct Maker<'s> {
    source: &'s Source<'s>,
}

/// The first line of an element.
fn first_line(element: &Element) -> Option<usize> {
    element.places().map(|((line, _), _)| line)
}

impl Maker<'_> {
    fn meta(&self, element: &Element) -> NodeMeta {
        NodeMeta::new(element.places().and_then(|places| self.source.span(places)))
    }

    /// What stands where an element begins, to the end of its line.
    fn begins(&self, element: &Element) -> &str {
        let at = element
            .places()
            .and_then(|(first, _)| self.source.at(first));
        at.map_or("", |at| self.source.rest_of_line(at))
    }

    fn blank_lines(&self, lines: Range<usize>) -> impl Iterator<Item = Block> + '_ {
        let meta = |line| NodeMeta::new(Some(self.source.line_span(line)));
        lines.map(move |line| BlankLine { meta: meta(line) }.into())
    }

    /// Blocks side by side: "K blank lines between two blocks are one
    /// separator and K − 1 of these." With `ends`, those at the start and at
    /// the end are "each [...] one".
    fn blocks(
        &self,
        elements: &[&Element],
        quotes: usize,
        ends: Option<Ends>,
    ) -> Result<Vec<Block>, String> {
        let mut blocks = Vec::new();
        let mut floor = ends.as_ref().map(|ends| ends.floor);
        for element in elements {
            if let (Some(line), Some(floor)) = (first_line(element), floor) {
                let mut blank = self.source.blanks_before(line, floor, quotes);
                let opens = blocks.is_empty() && blank.start == floor + 1;
                blank.start += usize::from(!opens);
                blocks.extend(self.blank_lines(blank));
            }
            blocks.push(self.block(element, quotes)?);
            floor = first_line(element).or(floor);
        }
        if let (Some(ends), Some(floor)) = (ends, floor) {
            if !elements
                .last()
                .is_some_and(|last| self.holds_blank_lines(last))
            {
                let blank = self.source.blanks_before(ends.last + 1, floor, quotes);
                blocks.extend(self.blank_lines(blank));
            }
        }
        Ok(blocks)
    }

    /// Whether the lines behind a block, up to its container's end, are its
    /// own: code whose fence nothing closes, or HTML that goes on.
    fn holds_blank_lines(&self, element: &Element) -> bool {
        let mut last = element;
        while let ("block_quote" | "list" | "item" | "tasklist", Some(child)) =
            (last.name.as_str(), last.children.last())
        {
            last = child;
        }
        match last.name.as_str() {
            "html_block" => last.text.ends_with("\n\n"),
            "code_block" if self.fence(last).is_some() => {
                let last = last.places().map(|(_, (line, _))| self.source.line(line));
                !last.is_some_and(closes_fence)
            }
            _ => false,
        }
    }

    fn block(&self, element: &Element, quotes: usize) -> Result<Block, String> {
        let meta = self.meta(element);
        Ok(match element.name.as_str() {
            "paragraph" => self.paragraph(element, quotes)?.into(),
            "heading" => self.heading(element, quotes)?.into(),
            "thematic_break" => ThematicBreak {
                meta,
                marker: self.break_marker(element),
            }
            .into(),
            "block_quote" => BlockQuote {
                meta,
                children: self.quoted(element, quotes)?,
            }
            .into(),
            "list" => self.list(element, quotes)?.into(),
            "code_block" => self.code_block(element).into(),
            "html_block" => HtmlBlock {
                meta,
                value: element.text.clone(),
            }
            .into(),
            "table" => self.table(element, quotes)?.into(),
            UNKNOWN => self.footnote_definition(element, quotes)?.into(),
            name => return Err(format!("a block <{name}>")),
        })
    }

    fn paragraph(&self, element: &Element, quotes: usize) -> Result<Paragraph, String> {
        let places = element.places().ok_or("a paragraph without a place")?;
        let places = Places::of_paragraph(self.source, places, quotes, &element.children);
        let mut paragraph = Paragraph::new(Inlines::new(places).all(&element.children)?);
        paragraph.meta = self.meta(element);
        Ok(paragraph)
    }

    fn heading(&self, element: &Element, quotes: usize) -> Result<Heading, String> {
        let level = element
            .attribute("level")
            .and_then(|level| level.parse().ok());
        let depth = level.ok_or("a heading's level")?;
        let mut heading = Heading::new(depth, self.inlines(element, quotes)?);
        heading.meta = self.meta(element);
        Ok(heading)
    }

    fn inlines(&self, element: &Element, quotes: usize) -> Result<Vec<Inline>, String> {
        let (first, _) = element.places().ok_or("inlines without a place")?;
        let places = Places::new(self.source, first, quotes);
        Inlines::new(places).all(&element.children)
    }

    fn break_marker(&self, element: &Element) -> ThematicBreakMarker {
        match self.begins(element).chars().next() {
            Some('*') => ThematicBreakMarker::Asterisk,
            Some('_') => ThematicBreakMarker::Underscore,
            _ => ThematicBreakMarker::Dash,
        }
    }

    /// The blocks of a quote. Blank lines with its marker that follow its last
    /// line are its own.
    fn quoted(&self, element: &Element, quotes: usize) -> Result<Vec<Block>, String> {
        let inside: Vec<&Element> = element.children.iter().collect();
        let ((first, _), (last, _)) = element.places().ok_or("a quote without a place")?;
        let last = self.source.blanks_behind(last, quotes + 1).end - 1;
        let ends = Ends {
            floor: first.saturating_sub(1),
            last,
        };
        self.blocks(&inside, quotes + 1, Some(ends))
    }

    fn list(&self, element: &Element, quotes: usize) -> Result<List, String> {
        let ordered = element.attribute("type") == Some("ordered");
        let mut children: Vec<ListItem> = Vec::new();
        let mut floor = None;
        for item in &element.children {
            let line = first_line(item);
            if let (Some(line), Some(floor), Some(before)) = (line, floor, children.last_mut()) {
                let mut blank = self.source.blanks_before(line, floor, quotes);
                blank.start += 1;
                before.children.extend(self.blank_lines(blank));
            }
            children.push(self.item(item, ordered, quotes)?);
            floor = line;
        }
        let first = element
            .children
            .first()
            .map_or("", |item| self.begins(item));
        Ok(List {
            meta: self.meta(element),
            ordered,
            delimiter: delimiter(element, first),
            tight: element.attribute("tight") == Some("true"),
            children,
        })
    }

    fn item(&self, element: &Element, ordered: bool, quotes: usize) -> Result<ListItem, String> {
        let inside: Vec<&Element> = element.children.iter().collect();
        Ok(ListItem {
            meta: self.meta(element),
            checked: match element.name.as_str() {
                "item" => None,
                "tasklist" => Some(element.attribute("completed") == Some("true")),
                name => return Err(format!("<{name}> in a list")),
            },
            number: if ordered {
                number(self.begins(element))
            } else {
                None
            },
            children: self.blocks(&inside, quotes, None)?,
        })
    }

    /// The mark and the length of the fence that code begins with. Indented
    /// code may begin so too, but then its value does.
    fn fence(&self, code: &Element) -> Option<(FenceMarker, usize)> {
        let begins = self.begins(code);
        let (marker, mark) = match begins.chars().next()? {
            '`' => (FenceMarker::Backtick, '`'),
            '~' => (FenceMarker::Tilde, '~'),
            _ => return None,
        };
        let length = begins.len() - begins.trim_start_matches(mark).len();
        let is_value = code.text.lines().next() == Some(begins);
        (length >= 3 && !is_value).then_some((marker, length))
    }

    fn code_block(&self, element: &Element) -> CodeBlock {
        CodeBlock {
            meta: self.meta(element),
            kind: match self.fence(element) {
                Some((marker, length)) => CodeBlockKind::Fenced { marker, length },
                None => CodeBlockKind::Indented,
            },
            info: element.attribute("info").map(Into::into),
            value: element.text.clone(),
        }
    }

    /// "All rows; the first is the header row."
    fn table(&self, element: &Element, quotes: usize) -> Result<Table, String> {
        let head = element
            .children
            .first()
            .map_or(&[][..], |row| &row.children);
        let rows: Result<_, String> = element
            .children
            .iter()
            .map(|row| self.row(row, quotes))
            .collect();
        Ok(Table {
            meta: self.meta(element),
            alignments: head.iter().map(alignment).collect(),
            rows: rows?,
        })
    }

    fn row(&self, element: &Element, quotes: usize) -> Result<TableRow, String> {
        let cell = |element: &Element| -> Result<TableCell, String> {
            let mut cell = TableCell::new(self.inlines(element, quotes)?);
            cell.meta = self.meta(element);
            Ok(cell)
        };
        let cells: Result<_, String> = element.children.iter().map(cell).collect();
        Ok(TableRow {
            meta: self.meta(element),
            cells: cells?,
        })
    }

    /// The XML has no label, so it is the last one in the source before the
    /// place where the content begins.
    fn footnote_definition(
        &self,
        element: &Element,
        quotes: usize,
    ) -> Result<FootnoteDefinition, String> {
        let inside: Vec<&Element> = element.children.iter().collect();
        let (first, _) = element.places().ok_or("a footnote without a place")?;
        let label = self.label_before(first).unwrap_or_default();
        Ok(FootnoteDefinition {
            meta: self.meta(element),
            identifier: identifier(&label),
            label,
            children: self.blocks(&inside, quotes, None)?,
        })
    }

    fn label_before(&self, first: Place) -> Option<String> {
        let start = self.source.start_of(first.0);
        let before = self.source.slice(start..self.source.at(first)?);
        let (_, label) = before.rsplit_once("[^")?;
        Some(label.rsplit_once("]:")?.0.into())
    }
}

/// Whether a line is a fence, behind the markers of the quotes around it.
fn closes_fence(line: &str) -> bool {
    let fence = line.trim_start_matches([' ', '\t', '>']).trim_end();
    let is_all = |mark| fence.bytes().all(|byte| byte == mark);
    fence.len() >= 3 && (is_all(b'`') || is_all(b'~'))
}

/// How a list is marked: an ordered one by the XML, another by what its first
/// item begins with.
fn delimiter(list: &Element, first: &str) -> ListDelimiter {
    match (list.attribute("delim"), first.chars().next()) {
        (Some("paren"), _) => ListDelimiter::Paren,
        (Some(_), _) => ListDelimiter::Period,
        (None, Some('*')) => ListDelimiter::Asterisk,
        (None, Some('+')) => ListDelimiter::Plus,
        (None, _) => ListDelimiter::Dash,
    }
}

/// The number that an item is written with.
fn number(item: &str) -> Option<u64> {
    let end = item.find(|char: char| !char.is_ascii_digit())?;
    item[..end].parse().ok()
}

fn alignment(cell: &Element) -> TableAlignment {
    match cell.attribute("align") {
        Some("left") => TableAlignment::Left,
        Some("center") => TableAlignment::Center,
        Some("right") => TableAlignment::Right,
        _ => TableAlignment::None,
    }
}
