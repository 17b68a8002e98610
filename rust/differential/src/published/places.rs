//! Where the inlines of a block stand in the source.
//!
//! cmark-gfm gives most inlines a place. It counts on in a line past a
//! backslash at its end and past line endings in a link's destination, gives a
//! line that continues a paragraph the indent of its first line, counts no line
//! of the definitions that a paragraph begins with, and misplaces an autolink
//! in angle brackets (not its text); a link that it finds in a text often has
//! no place at all.

use std::ops::Range;

use super::{
    source::Source,
    text::pieces,
    xml::{Element, Place},
};

/// The places of one block, and how far its inlines were read.
#[derive(Clone)]
pub struct Places<'s> {
    source: &'s Source<'s>,
    /// Where the block begins, and how many quotes are around it.
    first: Place,
    quotes: usize,
    /// The line that cmark-gfm is in, by how many lines it is behind the
    /// source where that line begins, and by how many where the next does.
    line: usize,
    behind: usize,
    behind_next: usize,
    /// The end of the inline before.
    cursor: usize,
}

impl<'s> Places<'s> {
    /// Of a block that begins at a place.
    pub fn new(source: &'s Source<'s>, first: Place, quotes: usize) -> Self {
        Self {
            source,
            first,
            quotes,
            line: first.0,
            behind: 0,
            behind_next: 0,
            cursor: source.at(first).unwrap_or(0),
        }
    }

    /// Of a paragraph: where definitions stood before its text, the first text
    /// that stands where the source has it tells how many lines they took.
    pub fn of_paragraph(
        source: &'s Source<'s>,
        (first, last): (Place, Place),
        quotes: usize,
        inside: &[Element],
    ) -> Self {
        let places = Self::new(source, first, quotes);
        let begins = source.rest_of_line(places.cursor).starts_with('[');
        let text = inside
            .iter()
            .find(|element| element.name == "text" && !element.text.is_empty());
        let Some(text) = text.filter(|_| begins) else {
            return places;
        };
        let behind = |behind| Self {
            behind,
            behind_next: behind,
            ..places.clone()
        };
        let fits = |places: &Self| {
            let bytes = places.bytes(text);
            bytes.is_some_and(|bytes| pieces(source.slice(bytes), &text.text).is_some())
        };
        let lines = last.0.saturating_sub(first.0);
        (0..=lines).map(behind).find(fits).unwrap_or(places)
    }

    /// Where the content of one of the block's lines begins.
    fn content(&self, line: usize) -> usize {
        let (first, column) = self.first;
        match line == first {
            true => self.source.start_of(line) + column.saturating_sub(1),
            false => self.source.content_of(line, self.quotes),
        }
    }

    /// The byte of a place in the block's content: a column that is past its
    /// line's end is in a later line.
    fn byte(&self, (line, column): Place) -> Option<usize> {
        let behind = if line > self.line {
            self.behind_next
        } else {
            self.behind
        };
        let mut line = line + behind;
        let mut left = column.checked_sub(self.first.1)?;
        loop {
            let start = self.content(line);
            if start + left <= self.source.end_of(line) {
                return Some(start + left);
            }
            line += 1;
            left = (start + left).checked_sub(self.source.start_of(line))?;
            if line > self.source.lines() {
                return None;
            }
        }
    }

    /// The bytes of an element that has a place.
    pub fn bytes(&self, element: &Element) -> Option<Range<usize>> {
        if let Some(bytes) = self.angle(element) {
            return Some(bytes);
        }
        let (first, (line, column)) = element.places()?;
        let (start, end) = (self.byte(first)?, self.byte((line, column + 1))?);
        (start <= end).then_some(start..end)
    }

    /// The bytes of an autolink in angle brackets: its text's, and the
    /// brackets.
    fn angle(&self, element: &Element) -> Option<Range<usize>> {
        let text = element
            .children
            .first()
            .filter(|text| element.name == "link" && text.name == "text")?;
        let inside = self.bytes(text)?;
        let bytes = inside.start.checked_sub(1)?..inside.end + 1;
        let source = self.source.slice(bytes.clone());
        (source.starts_with('<') && source.ends_with('>')).then_some(bytes)
    }

    /// Whether the character stands right before an element.
    pub fn is_behind(&self, element: &Element, char: char) -> bool {
        let start = self.bytes(element).map_or(0, |bytes| bytes.start);
        self.source.slice(0..start).ends_with(char)
    }

    /// What stands there.
    pub fn slice(&self, bytes: Option<&Range<usize>>) -> &'s str {
        bytes.map_or("", |bytes| self.source.slice(bytes.clone()))
    }

    /// An inline begins.
    pub fn begin(&mut self, bytes: Option<&Range<usize>>) {
        self.cursor = bytes.map_or(self.cursor, |bytes| bytes.start);
    }

    /// The inline ends: what cmark-gfm's line and the source's are there.
    pub fn end(&mut self, element: &Element, bytes: Option<&Range<usize>>) {
        let (Some(bytes), Some((_, (line, _)))) = (bytes, element.places()) else {
            return;
        };
        self.cursor = bytes.end;
        if line > self.line {
            (self.line, self.behind) = (line, self.behind_next);
        }
        self.behind_next = self
            .source
            .line_of(bytes.end)
            .saturating_sub(line)
            .max(self.behind);
    }

    /// Goes on behind a line ending, and says whether a backslash is before
    /// it, which cmark-gfm does not count.
    pub fn next_line(&mut self) -> bool {
        let backslash = self.source.rest_of_line(self.cursor).ends_with('\\');
        let line = self.source.line_of(self.cursor);
        self.cursor = self.content(line + 1);
        backslash
    }

    /// A backslash break: cmark-gfm falls a line behind.
    pub fn uncounted(&mut self) {
        self.behind_next += 1;
    }
}

#[cfg(test)]
mod tests {
    use super::*;
    use crate::published::xml;

    fn text(place: &str, value: &str) -> Element {
        xml::read(&format!("<text sourcepos=\"{place}\">{value}</text>")).unwrap()
    }

    /// Reads texts with breaks between them, and gives what stands at each.
    fn slices(places: &mut Places<'_>, texts: &[(&str, &str)]) -> Vec<String> {
        let slices = texts.iter().map(|(place, value)| {
            let element = text(place, value);
            let bytes = places.bytes(&element);
            places.begin(bytes.as_ref());
            places.end(&element, bytes.as_ref());
            let slice = places.slice(bytes.as_ref()).to_string();
            if places.next_line() {
                places.uncounted();
            }
            slice
        });
        slices.collect()
    }

    /// The second line is lazy, the third ends with a backslash, and the one
    /// behind that is not counted.
    #[test]
    fn lines_of_a_quote() {
        let source = Source::new("> ab\ncd\n>  ef\\\n> gh\n> ij\n");
        let mut places = Places::new(&source, (1, 3), 1);
        let found = slices(
            &mut places,
            &[
                ("1:3-1:4", "ab"),
                ("2:3-2:4", "cd"),
                ("3:3-3:4", "ef"),
                ("3:7-3:8", "gh"),
                ("4:3-4:4", "ij"),
            ],
        );
        assert_eq!(found, ["ab", "cd", "ef", "gh", "ij"]);
    }

    /// Nothing in the line behind a backslash has a place.
    #[test]
    fn line_without_places() {
        let source = Source::new("a\\\nb\nc");
        let mut places = Places::new(&source, (1, 1), 0);
        let texts = [("1:1-1:1", "a"), ("", "b"), ("2:1-2:1", "c")];
        assert_eq!(slices(&mut places, &texts), ["a", "", "c"]);
    }

    /// A link that goes over a line ending moves what is behind it.
    #[test]
    fn link_over_lines() {
        let source = Source::new("[a](b\n\"c\") d\ne");
        let mut places = Places::new(&source, (1, 1), 0);
        let link = xml::read("<link sourcepos=\"1:1-1:10\"/>").unwrap();
        let bytes = places.bytes(&link);
        assert_eq!(places.slice(bytes.as_ref()), "[a](b\n\"c\")");
        places.end(&link, bytes.as_ref());
        assert_eq!(
            slices(&mut places, &[("1:11-1:12", " d"), ("2:1-2:1", "e")]),
            [" d", "e"]
        );
    }

    /// Two lines of definitions before a paragraph's text.
    #[test]
    fn behind_definitions() {
        let source = Source::new("[a]: b\n[c]: d\ntext\nmore");
        let inside = [text("1:1-1:4", "text")];
        let mut places = Places::of_paragraph(&source, ((1, 1), (4, 4)), 0, &inside);
        assert_eq!(
            slices(&mut places, &[("1:1-1:4", "text"), ("2:1-2:4", "more")]),
            ["text", "more"]
        );
        let mut places = Places::new(&source, (1, 1), 0);
        assert_eq!(slices(&mut places, &[("1:1-1:4", "text")]), ["[a]:"]);
    }

    #[test]
    fn autolinks() {
        let source = Source::new("x <http://a> [http://b](c)");
        let places = Places::new(&source, (1, 1), 0);
        let link = |place: &str, text: &str| {
            let xml =
                format!("<link sourcepos=\"{place}\"><text sourcepos=\"{text}\">t</text></link>");
            let bytes = places.bytes(&xml::read(&xml).unwrap());
            places.slice(bytes.as_ref())
        };
        assert_eq!(link("1:1-1:7", "1:4-1:11"), "<http://a>");
        assert_eq!(link("1:14-1:26", "1:15-1:22"), "[http://b](c)");
    }

    /// Places before the block and behind the source.
    #[test]
    fn nowhere() {
        let source = Source::new("  ab\n");
        let places = Places::new(&source, (1, 3), 0);
        for place in [
            "1:1-1:4", "1:0-1:0", "1:3-1:1", "1:3-1:9", "9:3-9:4", "x", "1:3",
        ] {
            assert_eq!(places.bytes(&text(place, "ab")), None, "{place}");
        }
        assert_eq!(places.bytes(&text("1:3-1:4", "ab")), Some(2..4));
    }
}
