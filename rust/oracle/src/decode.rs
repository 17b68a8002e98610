//! What `ast.rs` calls of the reference's decoder.

use alloc::string::{String, ToString};

/// Dropped: character reference. Every text is one.
pub(crate) fn decode_character_reference(reference: &str) -> Option<String> {
    Some(reference.to_string())
}

/// No message calls it: it serves the decoded target and label of a wikilink,
/// which the oracle does not give.
pub(crate) fn decode_escapes_and_references(_text: &str) -> String {
    unimplemented!("decoding is not among the reference's files")
}
