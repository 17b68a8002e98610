//! The kinds of records by name and number.

use std::fmt;

/// The enum, and what is known of each kind.
macro_rules! kinds {
    ($($(#[$doc:meta])* $kind:ident = $number:literal, $name:literal;)*) => {
        /// What a record is: its first word. Blocks are 1 to 17, inlines 31 to
        /// 53; 20 to 24 are parts of blocks and inlines: items, rows, cells,
        /// HTML tags and attributes.
        #[derive(Clone, Copy, PartialEq, Eq, PartialOrd, Ord, Hash, Debug)]
        #[non_exhaustive]
        #[repr(u32)]
        pub enum Kind {
            $($(#[$doc])* $kind = $number,)*
        }

        impl Kind {
            /// Every kind, in the order of the numbers.
            pub const ALL: &'static [Self] = &[$(Self::$kind),*];

            /// The kind of a number; None for a number that is no kind.
            #[must_use]
            pub const fn from_raw(number: u32) -> Option<Self> {
                match number {
                    $($number => Some(Self::$kind),)*
                    _ => None,
                }
            }

            /// What it is called.
            #[must_use]
            pub const fn name(self) -> &'static str {
                match self {
                    $(Self::$kind => $name,)*
                }
            }
        }
    };
}

kinds! {
    /// 1: a paragraph.
    Paragraph = 1, "paragraph";
    /// 2: a heading.
    Heading = 2, "heading";
    /// 3: a thematic break.
    ThematicBreak = 3, "thematic break";
    /// 4: a block quote.
    BlockQuote = 4, "block quote";
    /// 5: an alert.
    Alert = 5, "alert";
    /// 6: a list.
    List = 6, "list";
    /// 7: a code block, fenced or indented.
    CodeBlock = 7, "code block";
    /// 8: a block of raw HTML.
    HtmlBlock = 8, "HTML block";
    /// 9: an HTML container: two tags, and what stands between them.
    HtmlContainer = 9, "HTML container";
    /// 10: the definition of a link or an image.
    Definition = 10, "definition";
    /// 11: the definition of a footnote.
    FootnoteDefinition = 11, "footnote definition";
    /// 12: a table.
    Table = 12, "table";
    /// 13: a block of mathematics.
    MathBlock = 13, "math block";
    /// 14: frontmatter, YAML or TOML.
    Frontmatter = 14, "frontmatter";
    /// 15: a leaf directive.
    LeafDirective = 15, "leaf directive";
    /// 16: a container directive.
    ContainerDirective = 16, "container directive";
    /// 17: a blank line beyond the one between two blocks.
    BlankLine = 17, "blank line";
    /// 20: an item of a list.
    Item = 20, "item";
    /// 21: a row of a table.
    Row = 21, "row";
    /// 22: a cell of a row.
    Cell = 22, "cell";
    /// 23: the opening or the closing tag of an HTML container.
    HtmlTag = 23, "HTML tag";
    /// 24: an attribute of a directive.
    Attribute = 24, "attribute";
    /// 31: a text.
    Text = 31, "text";
    /// 32: an escaped character.
    Escape = 32, "escape";
    /// 33: a character reference.
    CharacterReference = 33, "character reference";
    /// 34: emphasis.
    Emphasis = 34, "emphasis";
    /// 35: strong emphasis.
    Strong = 35, "strong";
    /// 36: a strikethrough.
    Delete = 36, "delete";
    /// 37: a mark.
    Mark = 37, "mark";
    /// 38: a shortcode.
    Shortcode = 38, "shortcode";
    /// 39: inline code.
    Code = 39, "code";
    /// 40: a link.
    Link = 40, "link";
    /// 41: an autolink.
    Autolink = 41, "autolink";
    /// 42: an image.
    Image = 42, "image";
    /// 43: a link by a reference.
    LinkReference = 43, "link reference";
    /// 44: an image by a reference.
    ImageReference = 44, "image reference";
    /// 45: inline HTML.
    Html = 45, "HTML inline";
    /// 46: a soft break.
    SoftBreak = 46, "soft break";
    /// 47: a hard break, written as a backslash or as spaces.
    LineBreak = 47, "line break";
    /// 48: inline mathematics.
    Math = 48, "math";
    /// 49: a reference to a footnote.
    FootnoteReference = 49, "footnote reference";
    /// 50: a footnote where it is referred to.
    InlineFootnote = 50, "inline footnote";
    /// 51: a wikilink.
    WikiLink = 51, "wikilink";
    /// 52: a text directive.
    TextDirective = 52, "text directive";
    /// 53: a tag.
    Tag = 53, "tag";
}

impl Kind {
    /// Its number, as it stands in a record.
    #[must_use]
    pub const fn number(self) -> u32 {
        self as u32
    }

    /// Whether it is a block.
    #[must_use]
    pub const fn is_block(self) -> bool {
        matches!(self.number(), 1..=17)
    }

    /// Whether it is an inline.
    #[must_use]
    pub const fn is_inline(self) -> bool {
        matches!(self.number(), 31..=53)
    }

    /// Whether paths count it: blocks, items, rows and cells.
    #[must_use]
    pub const fn is_counted(self) -> bool {
        self.is_block() || matches!(self, Self::Item | Self::Row | Self::Cell)
    }
}

/// For people: `block quote`.
impl fmt::Display for Kind {
    fn fmt(&self, formatter: &mut fmt::Formatter<'_>) -> fmt::Result {
        formatter.write_str(self.name())
    }
}

impl From<Kind> for u32 {
    fn from(kind: Kind) -> Self {
        kind.number()
    }
}

#[cfg(test)]
mod tests {
    use super::*;
    use std::collections::BTreeSet;

    /// Document 01's numbers, there and back, and no two names alike.
    #[test]
    fn numbers() {
        let numbers: Vec<u32> = Kind::ALL.iter().map(|kind| kind.number()).collect();
        let wanted = (1..=17).chain(20..=24).chain(31..=53);
        assert_eq!(numbers, wanted.collect::<Vec<u32>>());
        for number in 0..100 {
            let kind = Kind::from_raw(number);
            assert_eq!(kind.is_some(), numbers.contains(&number));
            assert!(kind.iter().all(|kind| kind.number() == number));
        }
        let names: BTreeSet<&str> = Kind::ALL.iter().map(|kind| kind.name()).collect();
        assert_eq!(names.len(), Kind::ALL.len());
        assert_eq!(Kind::from_raw(u32::MAX), None);
    }

    #[test]
    fn sorts() {
        let numbers = |is: fn(Kind) -> bool| -> Vec<u32> {
            let kinds = Kind::ALL.iter().filter(|&&kind| is(kind));
            kinds.map(|&kind| kind.into()).collect()
        };
        assert_eq!(numbers(Kind::is_block), (1..=17).collect::<Vec<u32>>());
        assert_eq!(numbers(Kind::is_inline), (31..=53).collect::<Vec<u32>>());
        let counted: Vec<u32> = (1..=17).chain(20..=22).collect();
        assert_eq!(numbers(Kind::is_counted), counted);
        assert_eq!(Kind::HtmlBlock.to_string(), "HTML block");
        assert_eq!(Kind::ThematicBreak.to_string(), "thematic break");
    }
}
