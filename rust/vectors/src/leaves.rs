//! The answers of the Rust for one text: what the text leaves are compared
//! with. Where a rule of the walk reads a leaf, the answer is whether the
//! oracle reports that rule for the smallest document that asks it.

use oracle::ast::{
    Alert, AlertKind, Block, CodeBlock, CodeBlockKind, CodeInline, Definition, DirectiveAttribute,
    Document, Frontmatter, FrontmatterKind, Inline, LeafDirective, LinkDestinationKind, MathInline,
    MathInlineKind, NodeMeta, Paragraph, Table, TableAlignment, TableCell, TableRow, Tag, Text,
};

/// How many functions a record of a text file answers for.
pub const FUNCTIONS: usize = 14;

/// The one function that takes bytes that are not UTF-8.
const IS_UTF8: u16 = 1;

/// The others take well-formed text, and stand at bits 1 to 13.
const OF_TEXT: [fn(&str) -> bool; FUNCTIONS - 1] = [
    starts_with_white,
    ends_with_white,
    holds_line_ending,
    has_blank_edge_line,
    holds_yaml_fence_line,
    holds_toml_fence_line,
    is_alert_title,
    has_odd_escaped_pipe,
    is_directive_name,
    is_attribute_name,
    is_blank_identifier,
    holds_backtick_dollar,
    is_tag_name,
];

/// Which functions are compared for `bytes`, and their answers: bit k of both
/// is function k.
pub fn answers(bytes: &[u8]) -> (u16, u16) {
    let Ok(text) = core::str::from_utf8(bytes) else {
        return (IS_UTF8, 0);
    };
    let mut answers = IS_UTF8;
    for (index, function) in OF_TEXT.iter().enumerate() {
        answers |= u16::from(function(text)) << (index + 1);
    }
    ((1 << FUNCTIONS) - 1, answers)
}

/// Whether the oracle reports `rule` for a document of `block`.
fn reports(rule: u32, block: impl Into<Block>) -> bool {
    let document = Document::new(vec![block.into()]);
    oracle::kept(&document)
        .iter()
        .any(|(reported, _)| *reported == rule)
}

pub fn starts_with_white(text: &str) -> bool {
    text.starts_with(char::is_whitespace)
}

pub fn ends_with_white(text: &str) -> bool {
    text.ends_with(char::is_whitespace)
}

/// Rule 31, for a paragraph of this text.
pub fn holds_line_ending(text: &str) -> bool {
    reports(31, Paragraph::new([Text::new(text)]))
}

/// Rule 27, for indented code of this value.
pub fn has_blank_edge_line(text: &str) -> bool {
    reports(
        27,
        CodeBlock {
            meta: NodeMeta::default(),
            kind: CodeBlockKind::Indented,
            info: None,
            value: text.into(),
        },
    )
}

/// Rule 29, for YAML frontmatter of this value.
pub fn holds_yaml_fence_line(text: &str) -> bool {
    holds_fence_line(FrontmatterKind::Yaml, text)
}

/// Rule 29, for TOML frontmatter of this value.
pub fn holds_toml_fence_line(text: &str) -> bool {
    holds_fence_line(FrontmatterKind::Toml, text)
}

fn holds_fence_line(kind: FrontmatterKind, text: &str) -> bool {
    reports(
        29,
        Frontmatter {
            meta: NodeMeta::default(),
            kind,
            value: text.into(),
        },
    )
}

/// Not rule 11, for an alert of this title.
pub fn is_alert_title(text: &str) -> bool {
    !reports(
        11,
        Alert {
            meta: NodeMeta::default(),
            kind: AlertKind::Note,
            title: Some(text.into()),
            children: Vec::new(),
        },
    )
}

/// Rule 21, for a table of one cell that holds code of this value.
pub fn has_odd_escaped_pipe(text: &str) -> bool {
    reports(
        21,
        Table {
            meta: NodeMeta::default(),
            alignments: vec![TableAlignment::None],
            rows: vec![TableRow {
                meta: NodeMeta::default(),
                cells: vec![TableCell::new([CodeInline::new(text)])],
            }],
        },
    )
}

/// Not rule 54, for a leaf directive of this name.
pub fn is_directive_name(text: &str) -> bool {
    !reports(54, LeafDirective::new(text))
}

/// Not rule 55, for a leaf directive with one attribute of this name.
pub fn is_attribute_name(text: &str) -> bool {
    let mut directive = LeafDirective::new("a");
    directive.attributes.push(DirectiveAttribute {
        name: text.into(),
        value: None,
    });
    !reports(55, directive)
}

/// Rule 24, for a definition of this identifier.
pub fn is_blank_identifier(text: &str) -> bool {
    reports(
        24,
        Definition {
            meta: NodeMeta::default(),
            label: text.into(),
            identifier: text.into(),
            destination: "a".into(),
            destination_kind: LinkDestinationKind::Bare,
            title: None,
        },
    )
}

/// Not rule 56, for a paragraph of a tag of this name.
pub fn is_tag_name(text: &str) -> bool {
    !reports(56, Paragraph::new([Inline::Tag(Tag::new(text))]))
}

/// Rule 48, for code-form math of this value.
pub fn holds_backtick_dollar(text: &str) -> bool {
    let math = Inline::Math(MathInline {
        meta: NodeMeta::default(),
        value: text.into(),
        kind: MathInlineKind::Code,
    });
    reports(48, Paragraph::new([math]))
}

#[cfg(test)]
mod tests {
    use super::*;
    use oracle::ast::{Emphasis, EmphasisDelimiter};

    #[test]
    fn pipes_after_backslashes() {
        assert!(has_odd_escaped_pipe(r"\|"));
        assert!(!has_odd_escaped_pipe(r"\\|"));
        assert!(has_odd_escaped_pipe(r"\\\|"));
        assert!(!has_odd_escaped_pipe(r"\a|"));
        assert!(!has_odd_escaped_pipe("|"));
    }

    #[test]
    fn crlf_is_one_line_ending() {
        assert!(!has_blank_edge_line("a\r\n"));
        assert!(has_blank_edge_line("a\n\n"));
        assert!(has_blank_edge_line("a\n\r"));
        assert!(has_blank_edge_line("\r\n"));
        assert!(has_blank_edge_line("\r\na"));
        assert!(has_blank_edge_line(""));
        assert!(!has_blank_edge_line("a"));
        assert!(holds_line_ending("a\rb"));
        assert!(holds_line_ending("\n"));
        assert!(!holds_line_ending("\u{85}\u{2028}\u{2029}\u{b}\u{c}"));
    }

    #[test]
    fn white_space_is_unicode_s() {
        // Document 01's list, entire, over all scalar values.
        let listed = |value: char| {
            matches!(value,
                '\u{9}'..='\u{d}' | '\u{20}' | '\u{85}' | '\u{a0}' | '\u{1680}'
                | '\u{2000}'..='\u{200a}' | '\u{2028}' | '\u{2029}' | '\u{202f}'
                | '\u{205f}' | '\u{3000}')
        };
        for value in '\0'..=char::MAX {
            let text = value.to_string();
            assert_eq!(starts_with_white(&text), listed(value), "{value:?}");
            assert_eq!(ends_with_white(&text), listed(value), "{value:?}");
        }
        for value in ['\u{b}', '\u{85}', '\u{2028}', '\u{2029}'] {
            assert!(starts_with_white(&format!("{value}x")));
            assert!(ends_with_white(&format!("x{value}")));
            assert!(!ends_with_white(&format!("{value}x")));
        }
    }

    /// Rule 40 is where the walk reads the two.
    #[test]
    fn white_space_is_rule_40_s() {
        for text in crate::texts::white() {
            let text = String::from_utf8(text).unwrap();
            let emphasis = Inline::Emphasis(Emphasis {
                meta: NodeMeta::default(),
                delimiter: EmphasisDelimiter::Asterisk,
                children: vec![Text::new(text.as_str()).into()],
            });
            assert_eq!(
                reports(40, Paragraph::new([emphasis])),
                starts_with_white(&text) || ends_with_white(&text),
                "{text:?}"
            );
        }
    }

    #[test]
    fn fences_with_blanks_after() {
        assert!(holds_yaml_fence_line("---"));
        assert!(holds_yaml_fence_line("--- \t"));
        assert!(holds_yaml_fence_line("a\r\n---\t \rb"));
        assert!(!holds_yaml_fence_line(" ---"));
        assert!(!holds_yaml_fence_line("----"));
        assert!(!holds_yaml_fence_line("+++"));
        assert!(!holds_toml_fence_line("---"));
        assert!(holds_toml_fence_line("+++ \t\n"));
    }

    #[test]
    fn titles_and_identifiers() {
        assert!(is_alert_title("a b"));
        assert!(!is_alert_title(""));
        assert!(!is_alert_title(" a"));
        assert!(!is_alert_title("a\t"));
        assert!(is_alert_title("\n"));
        assert!(is_blank_identifier(""));
        assert!(is_blank_identifier(" \t\r\n"));
        assert!(!is_blank_identifier("\u{a0}"));
    }

    #[test]
    fn names() {
        for name in crate::texts::names() {
            let name = String::from_utf8(name).unwrap();
            assert_eq!(is_directive_name(&name), oracle::is_directive_name(&name));
            assert_eq!(is_attribute_name(&name), oracle::is_attribute_name(&name));
        }
        assert!(is_directive_name("a-Z"));
        assert!(!is_directive_name("a--Z"));
        assert!(is_attribute_name("_:2"));
        assert!(!is_attribute_name("2"));
    }

    #[test]
    fn masks() {
        assert_eq!(answers(b"\xC0\x80"), (1, 0));
        // Blank, and so an edge line and an identifier, and no title or name.
        assert_eq!(answers(b""), (0x3FFF, 1 | 1 << 4 | 1 << 11));
        assert_eq!(answers(b"`$").1 >> 12, 1);
        assert_eq!(answers("\u{142}".as_bytes()).1 >> 13, 1);
    }
}
