//! What the reference calls of its parser: leaves that document 01 gives, and
//! stubs.

use alloc::{
    string::{String, ToString},
    vec::Vec,
};

use crate::{
    ast::{Block, FrontmatterKind, HtmlBlock, Inline, MathInlineKind},
    diagnostic::Diagnostic,
};

// Leaves.

/// "numbers 999,999,999 (not 50) and one more (50)": the greatest number of
/// an ordered item.
pub(crate) const MAX_ORDERED_NUMBER: u64 = 999_999_999;

/// "A title must not be empty and must equal itself trimmed of spaces and
/// tabs": the title that `text` gives, which rule 11 compares with `text`.
pub(crate) fn alert_title(text: &str) -> Option<String> {
    let title = text.trim_matches([' ', '\t']);
    (!title.is_empty()).then(|| title.to_string())
}

/// "Fences are `---` (YAML) and `+++` (TOML) after trimming trailing spaces
/// and tabs."
pub(crate) fn frontmatter_fence_kind(line: &str) -> Option<FrontmatterKind> {
    match line.trim_end_matches([' ', '\t']) {
        "---" => Some(FrontmatterKind::Yaml),
        "+++" => Some(FrontmatterKind::Toml),
        _ => None,
    }
}

/// "Blank is spaces and tabs only." A line of nothing is blank.
pub(crate) fn is_blank(line: &str) -> bool {
    line.trim_matches([' ', '\t']).is_empty()
}

// Stubs of what only dropped messages call.

/// Dropped: definition label `^`. The message needs a footnote label, which
/// [`is_footnote_label`] never sees, so this number does not matter; its true
/// value is not in the files.
pub(crate) const MAX_BLOCK_NESTING: usize = 64;

/// Dropped: definition label `^`. No label is a footnote label.
pub(crate) fn is_footnote_label(_label: &str) -> bool {
    false
}

/// Dropped: HTML block left open. None is. Its message stands before rule 15
/// in one chain of conditions, but cannot be given with it: the block before
/// is an HTML block in the one and never in the other.
pub(crate) fn html_block_left_open(_node: &HtmlBlock) -> bool {
    false
}

/// Dropped: both tight-item messages. Every block interrupts a paragraph.
pub(crate) fn interrupts_paragraph(_block: &Block) -> bool {
    true
}

/// Dropped: the second tight-item message. Every HTML block opens.
pub(crate) fn html_block_opens(_node: &HtmlBlock) -> bool {
    true
}

/// Dropped: the second tight-item message. No HTML block takes the next line.
pub(crate) fn html_block_ends_at_blank_line(_node: &HtmlBlock) -> bool {
    false
}

/// Dropped: the reference-label and footnote-label messages on identifiers.
/// Every identifier is its normalized label.
pub(crate) fn normalizes_to(_label: &str, _identifier: &str) -> bool {
    true
}

/// Dropped: the reference-label message on labels. Every label is one.
pub(crate) fn is_reference_label(_label: &str) -> bool {
    true
}

/// Dropped: the footnote-label message on labels. Every label is one.
pub(crate) fn is_written_footnote_label(_label: &str) -> bool {
    true
}

/// Dropped: dollar math read-back. All of it reads back.
pub(crate) fn reads_as_inline_math(_written: &str, _value: &str, _kind: MathInlineKind) -> bool {
    true
}

/// Dropped: autolink, in angle brackets. Every text is one.
pub(crate) fn angle_autolink_destination(text: &str) -> Option<String> {
    Some(text.to_string())
}

/// Dropped: autolink, literal. Every text is one.
pub(crate) fn literal_autolink_destination(text: &str) -> Option<String> {
    Some(text.to_string())
}

// Names that `ast.rs` needs for parsed documents. No message calls them, and
// their types have no values, so a document here has no source.

/// Where the parser read a block from.
pub(crate) enum TopLevelRead {}

/// The definitions that inline content is read with.
pub enum Definitions {}

/// What reading inline content gives.
pub(crate) struct InlineTree {
    pub(crate) inlines: Vec<Inline>,
    pub(crate) diagnostics: Vec<Diagnostic>,
}

/// Reads inline content.
pub(crate) fn parse_inline_tree(_text: &str, definitions: &Definitions) -> InlineTree {
    match *definitions {}
}
