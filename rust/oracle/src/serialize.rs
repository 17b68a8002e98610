//! What the reference calls of its writer: one leaf that document 01 gives,
//! and stubs.

use alloc::string::String;

use crate::ast::{Block, List, ListDelimiter, ListItem, MathInline};

/// "written marker `*` or `+` for such bullets, `-` for other bullets, `)`
/// for ordered paren, `.` for other ordered."
pub(crate) fn written_marker(list: &List) -> char {
    match (list.ordered, list.delimiter) {
        (false, ListDelimiter::Asterisk) => '*',
        (false, ListDelimiter::Plus) => '+',
        (false, _) => '-',
        (true, ListDelimiter::Paren) => ')',
        (true, _) => '.',
    }
}

/// Dropped: item first line. None misreads.
pub(crate) fn item_misreads_after_marker(_list: &List, _item: &ListItem) -> bool {
    false
}

/// Dropped: dollar math read-back, whose stub does not look at what is
/// written.
pub(crate) fn write_inline_math(_math: &MathInline) -> String {
    String::new()
}

/// Dropped: the second tight-item message. Every block opens like a fence, so
/// none continues the paragraph of a quote.
pub(crate) fn written_opens_fence_like(_block: &Block) -> bool {
    true
}
