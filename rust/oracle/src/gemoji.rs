//! What `ast.rs` calls of the reference's table of shortcodes.

/// Dropped: shortcode. Every name has a glyph.
pub(crate) fn glyph(_name: &str) -> Option<&'static str> {
    Some("")
}
