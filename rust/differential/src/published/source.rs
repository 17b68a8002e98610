//! The source that a tree was parsed from: its lines, its places, and its
//! blank lines.

use std::ops::Range;

use oracle::span::Span;

use super::xml::Place;

/// A source and its lines, which are numbered from 1.
pub struct Source<'s> {
    text: &'s str,
    /// Where each line starts, and where the last one ends.
    starts: Vec<usize>,
}

impl<'s> Source<'s> {
    /// A line ends with a LF, a CR, or a CR and a LF.
    pub fn new(text: &'s str) -> Self {
        let bytes = text.as_bytes();
        let ends = |&at: &usize| match bytes[at] {
            b'\n' => true,
            b'\r' => bytes.get(at + 1) != Some(&b'\n'),
            _ => false,
        };
        let behind = (0..bytes.len()).filter(ends).map(|at| at + 1);
        let mut starts: Vec<usize> = std::iter::once(0).chain(behind).collect();
        if starts.last() != Some(&text.len()) {
            starts.push(text.len());
        }
        Self { text, starts }
    }

    /// How many lines there are.
    pub fn lines(&self) -> usize {
        self.starts.len() - 1
    }

    /// The bytes of a line with its line ending; nothing of a line that there
    /// is not.
    fn bytes(&self, line: usize) -> Range<usize> {
        match line
            .checked_sub(1)
            .and_then(|at| self.starts.get(at..at + 2))
        {
            Some(&[start, end]) => start..end,
            _ => self.text.len()..self.text.len(),
        }
    }

    /// A line without its line ending.
    pub fn line(&self, line: usize) -> &'s str {
        self.text[self.bytes(line)].trim_end_matches(['\r', '\n'])
    }

    /// The line that a byte is in.
    pub fn line_of(&self, at: usize) -> usize {
        self.starts
            .partition_point(|&start| start <= at)
            .min(self.lines().max(1))
    }

    /// Where a line starts.
    pub fn start_of(&self, line: usize) -> usize {
        self.bytes(line).start
    }

    /// Where a line ends, without its line ending.
    pub fn end_of(&self, line: usize) -> usize {
        self.start_of(line) + self.line(line).len()
    }

    /// The byte of a place. None for a column before the first.
    pub fn at(&self, (line, column): Place) -> Option<usize> {
        let column = column.checked_sub(1)?;
        Some(self.start_of(line) + column)
    }

    /// What stands there; nothing where a character would be cut.
    pub fn slice(&self, bytes: Range<usize>) -> &'s str {
        self.text.get(bytes).unwrap_or_default()
    }

    /// What stands from there to the end of the line.
    pub fn rest_of_line(&self, at: usize) -> &'s str {
        let rest = self.text.get(at..).unwrap_or_default();
        rest.split(['\r', '\n']).next().unwrap_or_default()
    }

    /// The span from the first place to the last, that one included.
    pub fn span(&self, (first, last): (Place, Place)) -> Option<Span> {
        let (line, column) = last;
        Some(Span::new(self.at(first)?, self.start_of(line) + column))
    }

    /// The span of a line with its line ending.
    pub fn line_span(&self, line: usize) -> Span {
        let bytes = self.bytes(line);
        Span::new(bytes.start, bytes.end)
    }

    /// Whether the line holds only white space and `quotes` times the marker
    /// of a quote.
    pub fn is_blank(&self, line: usize, quotes: usize) -> bool {
        let line = self.line(line);
        let marks = line.bytes().filter(|&byte| byte == b'>').count();
        marks == quotes && line.bytes().all(|byte| b" \t>".contains(&byte))
    }

    /// The blank lines straight before a line, behind the line `floor`.
    pub fn blanks_before(&self, line: usize, floor: usize, quotes: usize) -> Range<usize> {
        let before = (floor + 1..line).rev();
        let blank = before.take_while(|&line| self.is_blank(line, quotes));
        line - blank.count()..line
    }

    /// The blank lines straight behind a line.
    pub fn blanks_behind(&self, line: usize, quotes: usize) -> Range<usize> {
        let behind = line + 1..=self.lines();
        let blank = behind.take_while(|&line| self.is_blank(line, quotes));
        line + 1..line + 1 + blank.count()
    }

    /// Where the content of a line begins: behind white space and the markers
    /// of at most so many quotes.
    pub fn content_of(&self, line: usize, quotes: usize) -> usize {
        let (mut at, mut left) = (0, quotes);
        for byte in self.line(line).bytes() {
            match byte {
                b' ' | b'\t' => {}
                b'>' if left > 0 => left -= 1,
                _ => break,
            }
            at += 1;
        }
        self.start_of(line) + at
    }
}

#[cfg(test)]
mod tests {
    use super::*;

    const TEXT: &str = "a\r\n\r>\n > > b\n\n \t\nc";

    #[test]
    fn lines() {
        let source = Source::new(TEXT);
        let lines: Vec<&str> = (1..=source.lines()).map(|line| source.line(line)).collect();
        assert_eq!(lines, ["a", "", ">", " > > b", "", " \t", "c"]);
        assert_eq!((source.line(0), source.line(8)), ("", ""));
        assert_eq!(
            (Source::new("").lines(), Source::new("a\n").lines()),
            (0, 1)
        );
        let of: Vec<usize> = [0, 2, 3, 4, 6, 13, 17, 99]
            .map(|at| source.line_of(at))
            .into();
        assert_eq!(of, [1, 1, 2, 3, 4, 5, 7, 7]);
        assert_eq!(source.line_span(1), Span::new(0, 3));
        assert_eq!(
            [1, 2, 4, 7, 8].map(|line| source.end_of(line)),
            [1, 3, 12, 18, 18]
        );
    }

    #[test]
    fn places() {
        let source = Source::new("aé\nbcd\n");
        assert_eq!((source.at((2, 1)), source.at((2, 0))), (Some(4), None));
        assert_eq!(source.span(((1, 2), (2, 2))), Some(Span::new(1, 6)));
        assert_eq!(source.span(((1, 1), (2, 0))), Some(Span::new(0, 4)));
        assert_eq!(
            (source.slice(1..3), source.slice(2..3), source.slice(3..99)),
            ("é", "", "")
        );
        assert_eq!((source.rest_of_line(5), source.rest_of_line(2)), ("cd", ""));
    }

    #[test]
    fn blank_lines() {
        let source = Source::new(TEXT);
        let blank = |quotes| {
            (1..=7)
                .filter(|&line| source.is_blank(line, quotes))
                .collect::<Vec<_>>()
        };
        assert_eq!(
            (blank(0), blank(1), blank(2)),
            (vec![2, 5, 6], vec![3], vec![])
        );
        assert_eq!(source.blanks_before(7, 4, 0), 5..7);
        assert_eq!(source.blanks_before(7, 5, 0), 6..7);
        assert_eq!(source.blanks_before(3, 1, 0), 2..3);
        assert_eq!(source.blanks_before(4, 1, 1), 3..4);
        assert_eq!(source.blanks_behind(4, 0), 5..7);
        assert_eq!(source.blanks_behind(7, 0), 8..8);
    }

    #[test]
    fn content() {
        let source = Source::new(TEXT);
        let text = |quotes| source.rest_of_line(source.content_of(4, quotes));
        assert_eq!((text(0), text(1), text(2)), ("> > b", "> b", "b"));
    }
}
