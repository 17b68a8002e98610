//! The rules by name and number.

use std::fmt;

/// A rule of the checker, by its number.
///
/// There is a constant for each of the rules 1 to 56, beside the sentence
/// that the Rust reference reports for it. A constant may stand in a pattern:
///
/// ```
/// use reedsander::Rule;
///
/// fn is_of_a_table(rule: Rule) -> bool {
///     matches!(
///         rule,
///         Rule::TABLE_WITHOUT_ROW | Rule::TABLE_WITHOUT_CELL | Rule::ALIGNMENT_COUNT | Rule::ROW_WIDTH
///     )
/// }
///
/// assert!(is_of_a_table(Rule::ROW_WIDTH));
/// assert_eq!(Rule::ROW_WIDTH.to_string(), "rule 19 (table: row width)");
/// ```
///
/// A library that is newer than this crate may report a rule that the crate
/// has no name for. Such an entry is given like any other, with the rule's
/// number; nothing that the checker found is left out.
#[derive(Clone, Copy, PartialEq, Eq, PartialOrd, Ord, Hash)]
pub struct Rule(u32);

/// The constants, and what is known of each.
macro_rules! rules {
    ($($(#[$doc:meta])* $constant:ident = $number:literal, $name:literal;)*) => {
        impl Rule {
            $($(#[$doc])* pub const $constant: Self = Self($number);)*

            /// Every rule that has a name, in the order of the numbers.
            pub const ALL: &'static [Self] = &[$(Self::$constant),*];

            /// The constant and the name of the rule.
            const fn known(self) -> Option<(&'static str, &'static str)> {
                match self.0 {
                    $($number => Some((stringify!($constant), $name)),)*
                    _ => None,
                }
            }
        }
    };
}

rules! {
    /// 1: adjacent lists cannot use the same marker.
    ADJACENT_LISTS = 1, "adjacent lists";
    /// 2: paragraph cannot be empty.
    EMPTY_PARAGRAPH = 2, "empty paragraph";
    /// 3: footnote definition identifier cannot be empty.
    EMPTY_FOOTNOTE_DEFINITION = 3, "footnote definition: empty identifier";
    /// 4: a footnote definition cannot open or end with a blank line.
    BLANK_LINE_IN_FOOTNOTE = 4, "footnote definition: blank line at an end";
    /// 5: HTML container opening tag name cannot be empty.
    EMPTY_OPENING_NAME = 5, "HTML container: empty opening name";
    /// 6: HTML container closing tag name cannot be empty.
    EMPTY_CLOSING_NAME = 6, "HTML container: empty closing name";
    /// 7: HTML container opening and closing tag names must match.
    TAG_NAMES_DIFFER = 7, "HTML container: names differ";
    /// 8: HTML container opening tag source cannot be empty.
    EMPTY_OPENING_SOURCE = 8, "HTML container: empty opening source";
    /// 9: HTML container closing tag source cannot be empty.
    EMPTY_CLOSING_SOURCE = 9, "HTML container: empty closing source";
    /// 10: heading depth must be in the range 1..=6.
    HEADING_DEPTH = 10, "heading depth";
    /// 11: alert title cannot be empty or start or end with a space or a tab.
    ALERT_TITLE = 11, "alert title";
    /// 12: list must hold at least one item.
    EMPTY_LIST = 12, "list: no item";
    /// 13: a loose list must hold two items or an item of two blocks.
    LOOSE_LIST = 13, "list: loose with one item of one block";
    /// 14: task list item must hold a non-empty paragraph after its leading definitions.
    TASK_ITEM = 14, "task item";
    /// 15: an indented code block must not be read as part of the block before it.
    INDENTED_CODE_TAKEN = 15, "indented code after";
    /// 16: table must contain at least a header row.
    TABLE_WITHOUT_ROW = 16, "table: no row";
    /// 17: table header row must contain at least one cell.
    TABLE_WITHOUT_CELL = 17, "table: no cell in its first row";
    /// 18: table alignment count must match header width.
    ALIGNMENT_COUNT = 18, "table: alignment count";
    /// 19: table row width must match header width.
    ROW_WIDTH = 19, "table: row width";
    /// 20: a table cell cannot hold a line break.
    BREAK_IN_CELL = 20, "break in cell";
    /// 21: a value in a table cell cannot hold a `|` after an odd run of backslashes.
    PIPE_IN_CELL = 21, "pipe in cell";
    /// 22: a leaf directive label cannot hold a line break.
    BREAK_IN_LEAF_LABEL = 22, "break in label of a leaf directive";
    /// 23: a container directive label cannot hold a line break.
    BREAK_IN_CONTAINER_LABEL = 23, "break in label of a container directive";
    /// 24: definition identifier cannot be empty.
    BLANK_DEFINITION = 24, "definition identifier";
    /// 25: a bare destination cannot be empty.
    EMPTY_BARE_DESTINATION = 25, "bare destination";
    /// 26: code block info string cannot be empty.
    EMPTY_INFO = 26, "code block: empty info";
    /// 27: indented code cannot be empty or start or end with a blank line.
    BLANK_EDGE_IN_CODE = 27, "code block: blank line at an end";
    /// 28: frontmatter cannot be inside a container.
    FRONTMATTER_INSIDE = 28, "frontmatter: inside a container";
    /// 29: frontmatter value cannot hold its own fence line.
    FENCE_IN_FRONTMATTER = 29, "frontmatter: holds its fence";
    /// 30: hard line break cannot be the final inline of its container.
    FINAL_HARD_BREAK = 30, "final hard break";
    /// 31: text cannot hold a line ending; a line ends with a soft or hard break.
    LINE_ENDING_IN_TEXT = 31, "text line ending";
    /// 32: link reference identifier cannot be empty.
    EMPTY_LINK_REFERENCE = 32, "link reference identifier";
    /// 33: image reference identifier cannot be empty.
    EMPTY_IMAGE_REFERENCE = 33, "image reference identifier";
    /// 34: footnote reference identifier cannot be empty.
    EMPTY_FOOTNOTE_REFERENCE = 34, "footnote reference identifier";
    /// 35: inline footnote cannot be empty.
    EMPTY_INLINE_FOOTNOTE = 35, "inline footnote";
    /// 36: wikilink target cannot be empty.
    EMPTY_WIKI_LINK = 36, "wikilink";
    /// 37: a soft break or a spaces hard break cannot follow a line break.
    BREAK_AFTER_BREAK = 37, "break after break";
    /// 38: adjacent strikethroughs cannot be written.
    ADJACENT_STRIKETHROUGHS = 38, "strikethroughs";
    /// 39: emphasis-like inline container cannot have empty children.
    EMPTY_EMPHASIS = 39, "emphasis kinds: empty";
    /// 40: emphasis-like inline content cannot start or end with whitespace.
    WHITE_EMPHASIS = 40, "emphasis kinds: white space at an end";
    /// 41: emphasis-like span cannot hold only a span written with the same delimiter.
    JOINED_EMPHASIS = 41, "emphasis kinds: one delimiter twice";
    /// 42: link text cannot hold a link.
    LINK_IN_LINK = 42, "link in link";
    /// 43: escaped value must be an ASCII punctuation character.
    ESCAPED_VALUE = 43, "escape";
    /// 44: inline code value cannot be empty.
    EMPTY_CODE = 44, "code: empty";
    /// 45: inline code value cannot hold a line ending.
    LINE_ENDING_IN_CODE = 45, "code: line ending";
    /// 46: inline math value cannot be empty.
    EMPTY_MATH = 46, "math: empty";
    /// 47: dollar-fenced inline math must have a fence length of at least 1.
    MATH_WITHOUT_FENCE = 47, "math: no dollar";
    /// 48: code-form inline math value cannot contain a backtick followed by `$`.
    BACKTICK_DOLLAR_IN_MATH = 48, "math: holds its end";
    /// 49: a bullet list item cannot hold a number.
    BULLET_NUMBER = 49, "item number: in a bullet list";
    /// 50: ordered list item number must be representable in at most 9 digits.
    LONG_NUMBER = 50, "item number: over nine digits";
    /// 51: a tight list cannot hold a blank line.
    BLANK_LINE_IN_TIGHT_LIST = 51, "blank line: in a tight list";
    /// 52: a list item cannot open with a blank line.
    BLANK_LINE_FIRST = 52, "blank line: opens an item";
    /// 53: the last item of a list cannot end with a blank line.
    BLANK_LINE_LAST = 53, "blank line: ends the last item";
    /// 54: directive name must be runs of ASCII letters joined by single `-`.
    DIRECTIVE_NAME = 54, "directive name";
    /// 55: directive attribute name must start with a letter, `_`, or `-`.
    ATTRIBUTE_NAME = 55, "attribute name";
    /// 56: tag name must be a Unicode letter followed by letters, numbers,
    /// `/`, `_`, or `-`.
    TAG_NAME = 56, "tag name";
}

impl Rule {
    /// The rule of a number; None for a number that is no rule, or of which
    /// this crate does not know.
    #[must_use]
    pub const fn from_raw(number: u32) -> Option<Self> {
        let rule = Self(number);
        match rule.known() {
            Some(_) => Some(rule),
            None => None,
        }
    }

    /// The rule of a number that stands in an entry.
    pub(crate) const fn of_entry(number: u32) -> Self {
        Self(number)
    }

    /// Its number, as it stands in the report.
    #[must_use]
    pub const fn number(self) -> u32 {
        self.0
    }

    /// What it is called: `table: row width`.
    #[must_use]
    pub const fn name(self) -> &'static str {
        match self.known() {
            Some((_, name)) => name,
            None => "a rule without a name here",
        }
    }
}

/// For people: `rule 19 (table: row width)`.
impl fmt::Display for Rule {
    fn fmt(&self, formatter: &mut fmt::Formatter<'_>) -> fmt::Result {
        write!(formatter, "rule {} ({})", self.number(), self.name())
    }
}

/// The constant, or the number where there is none: `ROW_WIDTH`, `Rule(99)`.
impl fmt::Debug for Rule {
    fn fmt(&self, formatter: &mut fmt::Formatter<'_>) -> fmt::Result {
        match self.known() {
            Some((constant, _)) => formatter.write_str(constant),
            None => write!(formatter, "Rule({})", self.0),
        }
    }
}

impl From<Rule> for u32 {
    fn from(rule: Rule) -> Self {
        rule.number()
    }
}

#[cfg(test)]
mod tests {
    use super::*;
    use std::collections::BTreeSet;

    /// The numbers are 1 to 56, there and back, and no two names are alike.
    #[test]
    fn numbers() {
        let numbers: Vec<u32> = Rule::ALL.iter().map(|rule| rule.number()).collect();
        assert_eq!(numbers, (1..=56).collect::<Vec<u32>>());
        for &rule in Rule::ALL {
            assert_eq!(Rule::from_raw(rule.number()), Some(rule));
            assert_eq!(u32::from(rule), rule.number());
        }
        let names: BTreeSet<&str> = Rule::ALL.iter().map(|rule| rule.name()).collect();
        assert_eq!(names.len(), Rule::ALL.len());
        for number in [0, 57, u32::MAX] {
            assert_eq!(Rule::from_raw(number), None);
        }
    }

    #[test]
    fn names() {
        for (rule, number, name) in [
            (Rule::ADJACENT_LISTS, 1, "adjacent lists"),
            (Rule::FINAL_HARD_BREAK, 30, "final hard break"),
            (Rule::LINK_IN_LINK, 42, "link in link"),
            (Rule::LONG_NUMBER, 50, "item number: over nine digits"),
            (Rule::ATTRIBUTE_NAME, 55, "attribute name"),
            (Rule::TAG_NAME, 56, "tag name"),
        ] {
            assert_eq!((rule.number(), rule.name()), (number, name));
        }
        let row = Rule::ROW_WIDTH;
        assert_eq!(row.to_string(), "rule 19 (table: row width)");
        assert_eq!(format!("{row:?}"), "ROW_WIDTH");
    }

    /// A number that an entry has, and no constant.
    #[test]
    fn without_a_name() {
        let newer = Rule::of_entry(99);
        assert_eq!(newer.number(), 99);
        assert!(!Rule::ALL.contains(&newer));
        assert_eq!(newer.to_string(), "rule 99 (a rule without a name here)");
        assert_eq!(format!("{newer:?}"), "Rule(99)");
    }
}
