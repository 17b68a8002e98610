//! The messages of `validate.rs`.

/// The messages that are compared: the rule of `KEPT[index]` is `index + 1`.
/// Document 01 numbers those up to 55 in the order in which they stand;
/// document 02 adds the tag's behind them.
pub const KEPT: [&str; 56] = [
    // 1: adjacent lists
    "adjacent lists cannot use the same marker",
    // 2: empty paragraph
    "paragraph cannot be empty",
    // 3 and 4: footnote definition
    "footnote definition identifier cannot be empty",
    "a footnote definition cannot open or end with a blank line",
    // 5 to 9: HTML container
    "HTML container opening tag name cannot be empty",
    "HTML container closing tag name cannot be empty",
    "HTML container opening and closing tag names must match",
    "HTML container opening tag source cannot be empty",
    "HTML container closing tag source cannot be empty",
    // 10: heading depth
    "heading depth must be in the range 1..=6",
    // 11: alert title
    "alert title cannot be empty or start or end with a space or a tab",
    // 12 and 13: list
    "list must hold at least one item",
    "a loose list must hold two items or an item of two blocks",
    // 14: task item
    "task list item must hold a non-empty paragraph after its leading definitions",
    // 15: indented code after
    "an indented code block must not be read as part of the block before it",
    // 16 to 19: table
    "table must contain at least a header row",
    "table header row must contain at least one cell",
    "table alignment count must match header width",
    "table row width must match header width",
    // 20: break in cell
    "a table cell cannot hold a line break",
    // 21: pipe in cell
    "a value in a table cell cannot hold a `|` after an odd run of backslashes",
    // 22 and 23: break in label
    "a leaf directive label cannot hold a line break",
    "a container directive label cannot hold a line break",
    // 24: definition identifier
    "definition identifier cannot be empty",
    // 25: bare destination
    "a bare destination cannot be empty",
    // 26 and 27: code block
    "code block info string cannot be empty",
    "indented code cannot be empty or start or end with a blank line",
    // 28 and 29: frontmatter
    "frontmatter cannot be inside a container",
    "frontmatter value cannot hold its own fence line",
    // 30: final hard break
    "hard line break cannot be the final inline of its container",
    // 31: text line ending
    "text cannot hold a line ending; a line ends with a soft or hard break",
    // 32 to 34: reference identifiers
    "link reference identifier cannot be empty",
    "image reference identifier cannot be empty",
    "footnote reference identifier cannot be empty",
    // 35: inline footnote
    "inline footnote cannot be empty",
    // 36: wikilink
    "wikilink target cannot be empty",
    // 37: break after break
    "a soft break or a spaces hard break cannot follow a line break",
    // 38: strikethroughs
    "adjacent strikethroughs cannot be written",
    // 39 to 41: emphasis kinds
    "emphasis-like inline container cannot have empty children",
    "emphasis-like inline content cannot start or end with whitespace",
    "emphasis-like span cannot hold only a span written with the same delimiter",
    // 42: link in link
    "link text cannot hold a link",
    // 43: escape
    "escaped value must be an ASCII punctuation character",
    // 44 and 45: code
    "inline code value cannot be empty",
    "inline code value cannot hold a line ending",
    // 46 to 48: math
    "inline math value cannot be empty",
    "dollar-fenced inline math must have a fence length of at least 1",
    "code-form inline math value cannot contain a backtick followed by `$`",
    // 49 and 50: item number
    "a bullet list item cannot hold a number",
    "ordered list item number must be representable in at most 9 digits",
    // 51 to 53: blank lines
    "a tight list cannot hold a blank line",
    "a list item cannot open with a blank line",
    "the last item of a list cannot end with a blank line",
    // 54: directive name
    "directive name must be runs of ASCII letters joined by single `-`",
    // 55: attribute name
    "directive attribute name must start with a letter, `_`, or `-`",
    // 56: tag name (document 02, order 1)
    "tag name must be a Unicode letter followed by letters, numbers, `/`, `_`, or `-`",
];

/// The messages that document 01 drops, but for the tag's, which document 02
/// brings back.
pub const DROPPED: [&str; 13] = [
    // HTML block left open
    "a block must not follow an HTML block that its value leaves open",
    // both tight-item messages
    "in a tight list item, a block after a paragraph must be able to interrupt it",
    "in a tight list item, a block must not be read as part of the block before it",
    // definition label `^`
    "definition label cannot be `^` followed by a footnote label",
    // two reference-label messages
    "reference identifier must be the normalized label",
    "reference label must be one the parser reads as a label",
    // two footnote-label messages
    "footnote identifier must be the normalized label",
    "footnote label must be one the parser reads as a footnote label",
    // shortcode
    "shortcode name must be a gemoji name",
    // autolink
    "autolink text must be exactly one autolink of its form",
    // character reference
    "character reference must be exactly one character reference",
    // dollar math read-back
    "dollar-fenced inline math must read back as written",
    // item first line
    "a list item's first line must not read as padding after its marker or as a thematic break with it",
];

/// The number of the rule whose message this is, or `None` for a dropped one.
///
/// # Panics
///
/// On a message that is neither kept nor dropped.
pub fn rule(message: &str) -> Option<u32> {
    let index = KEPT.iter().position(|kept| *kept == message);
    assert!(
        index.is_some() || DROPPED.contains(&message),
        "not a message of validate.rs: {message}"
    );
    index.map(|index| index as u32 + 1)
}

#[cfg(test)]
mod tests {
    use super::*;

    /// The string literals of a Rust source, in their order, comments passed
    /// over. It reads what validate.rs holds: no raw strings, no block
    /// comments, no literal over two lines, and `"` in no char literal.
    fn literals(source: &str) -> Vec<&str> {
        let mut found = Vec::new();
        for line in source.lines() {
            let mut rest = line;
            while let Some(at) = rest.find(['"', '/']) {
                if rest[at..].starts_with("//") {
                    break;
                }
                let inside = &rest[at + 1..];
                if rest[at..].starts_with('/') {
                    rest = inside;
                    continue;
                }
                let end = inside.find('"').expect("a literal ends on its line");
                found.push(&inside[..end]);
                rest = &inside[end + 1..];
            }
        }
        found
    }

    /// The literals of validate.rs are the messages and a few of no words. The
    /// tag's stands between those of 31 and 32, and is the last here.
    #[test]
    fn messages_stand_in_the_source() {
        let others = ["", "\\r\\n", "\\n", "`$"];
        let messages: Vec<&str> = literals(crate::VALIDATE_SOURCE)
            .into_iter()
            .filter(|literal| !others.contains(literal))
            .collect();
        assert_eq!(messages.len(), KEPT.len() + DROPPED.len());
        let (mut kept, dropped): (Vec<&str>, Vec<&str>) = messages
            .into_iter()
            .partition(|message| !DROPPED.contains(message));
        let tag = kept.iter().position(|message| *message == KEPT[55]);
        assert_eq!(tag, Some(31));
        let tag = kept.remove(31);
        kept.push(tag);
        assert_eq!(kept, KEPT);
        assert_eq!(dropped, DROPPED);
    }

    #[test]
    fn each_message_is_listed_once() {
        let mut all: Vec<&str> = KEPT.iter().chain(&DROPPED).copied().collect();
        all.sort_unstable();
        all.dedup();
        assert_eq!(all.len(), 69);
    }

    #[test]
    fn rules_are_numbered_from_one() {
        for (index, message) in KEPT.iter().enumerate() {
            assert_eq!(rule(message), Some(index as u32 + 1));
        }
        for message in DROPPED {
            assert_eq!(rule(message), None);
        }
    }

    /// A word of each message at the numbers that the papers give.
    #[test]
    fn rules_are_as_the_papers_number_them() {
        for (rules, word) in [
            (1..=1, "adjacent lists"),
            (2..=2, "paragraph"),
            (3..=4, "footnote definition"),
            (5..=9, "HTML container"),
            (10..=10, "heading depth"),
            (11..=11, "alert title"),
            (12..=13, "list must hold"),
            (14..=14, "task list item"),
            (15..=15, "indented code"),
            (16..=19, "table "),
            (20..=20, "table cell cannot hold a line break"),
            (21..=21, "`|`"),
            (22..=23, "directive label cannot hold a line break"),
            (24..=24, "definition identifier"),
            (25..=25, "bare destination"),
            (26..=27, "code"),
            (28..=29, "frontmatter"),
            (30..=30, "hard line break cannot be the final"),
            (31..=31, "text cannot hold a line ending"),
            (32..=34, "reference identifier"),
            (35..=35, "inline footnote"),
            (36..=36, "wikilink"),
            (37..=37, "cannot follow a line break"),
            (38..=38, "strikethroughs"),
            (39..=41, "emphasis-like"),
            (42..=42, "link text cannot hold a link"),
            (43..=43, "escaped value"),
            (44..=45, "inline code value"),
            (46..=48, "inline math"),
            (49..=50, "list item"),
            (51..=53, "blank line"),
            (54..=54, "directive name"),
            (55..=55, "directive attribute name"),
            (56..=56, "tag name must be a Unicode letter"),
        ] {
            for rule in rules {
                let message = KEPT[rule - 1];
                assert!(message.contains(word), "{rule}: {message}");
            }
        }
    }
}
