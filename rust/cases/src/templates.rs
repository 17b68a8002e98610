//! Sets of records that the rules look at.

use crate::letters::{self, Letter};

/// Blocks, one a kind or a few.
fn narrow_blocks() -> Vec<Letter> {
    vec![
        letters::paragraph(),
        letters::heading(0),
        letters::heading(1),
        letters::thematic_break(),
        letters::block_quote(),
        letters::alert(None),
        letters::alert(Some("")),
        letters::alert(Some("x")),
        letters::list(0, 0, 0),
        letters::list(0, 0, 1),
        letters::list(0, 1, 0),
        letters::list(0, 3, 1),
        letters::list(1, 0, 1),
        letters::list(1, 4, 0),
        letters::code_block(0, None, ""),
        letters::code_block(0, Some(""), "x"),
        letters::code_block(1, None, "x"),
        letters::code_block(1, None, " \nx"),
        letters::html_block(),
        letters::html_container(0),
        letters::html_container(1),
        letters::definition("x", 0, ""),
        letters::definition(" \t\r\n", 1, ""),
        letters::footnote_definition(""),
        letters::footnote_definition("x"),
        letters::table(0),
        letters::table(1),
        letters::math_block(),
        letters::frontmatter(0, "x\n---\n"),
        letters::frontmatter(1, "x"),
        letters::leaf_directive("x"),
        letters::leaf_directive(""),
        letters::container_directive("x"),
        letters::blank_line(),
    ]
}

/// Further values of blocks.
fn further_blocks() -> Vec<Letter> {
    let mut all = vec![
        letters::heading(6),
        letters::heading(7),
        letters::heading(255),
        letters::alert(Some(" x")),
        letters::alert(Some("x\t")),
        letters::alert(Some("\u{a0}")),
        letters::code_block(0, Some("x"), "\n"),
        letters::code_block(1, Some(""), ""),
        letters::code_block(1, None, "x\n"),
        letters::code_block(1, None, "x\r\n"),
        letters::code_block(1, None, "x\n\r"),
        letters::code_block(1, None, "x\n\t\n"),
        letters::code_block(1, None, "\u{b}"),
        letters::definition("", 2, ""),
        letters::definition("x", 2, "x"),
        letters::definition("\u{a0}", 0, "x"),
        letters::definition("x", 1, ""),
        letters::footnote_definition(" "),
        letters::table(2),
        letters::table(u32::MAX),
        letters::frontmatter(0, "+++"),
        letters::frontmatter(0, "--- \t"),
        letters::frontmatter(1, "x\r+++\t\rx"),
        letters::frontmatter(1, " +++"),
        letters::leaf_directive("a-b"),
        letters::leaf_directive("a-"),
        letters::container_directive("2"),
    ];
    for (ordered, delimiter) in [(0, 2), (0, 4), (1, 1), (1, 3)] {
        all.push(letters::list(ordered, delimiter, 0));
        all.push(letters::list(ordered, delimiter, 1));
    }
    all
}

/// Items, rows, cells, tags and attributes.
fn narrow_parts() -> Vec<Letter> {
    vec![
        letters::item(0, None),
        letters::item(2, None),
        letters::item(0, Some(1_000_000_000)),
        letters::row(),
        letters::cell(),
        letters::html_tag("x", "x"),
        letters::html_tag("", ""),
        letters::attribute("x"),
        letters::attribute("1"),
    ]
}

/// Further values of parts.
fn further_parts() -> Vec<Letter> {
    vec![
        letters::item(1, None),
        letters::item(1, Some(0)),
        letters::item(0, Some(999_999_999)),
        letters::html_tag("y", ""),
        letters::html_tag("", "x"),
        letters::attribute(""),
        letters::attribute("_:"),
        letters::attribute("-"),
    ]
}

/// Inlines, one a kind or a few.
fn narrow_inlines() -> Vec<Letter> {
    vec![
        letters::text(""),
        letters::text("x"),
        letters::text(" "),
        letters::text("a\rb"),
        letters::escape('x'),
        letters::character_reference(),
        letters::emphasis(0),
        letters::emphasis(1),
        letters::strong(0),
        letters::delete(),
        letters::mark(),
        letters::shortcode(),
        letters::code(""),
        letters::code("\\|"),
        letters::link(0, ""),
        letters::autolink("x"),
        letters::image(1, ""),
        letters::link_reference("", "\\|"),
        letters::image_reference("", "x"),
        letters::html("\\\\\\|"),
        letters::soft(),
        letters::hard(0),
        letters::hard(1),
        letters::code_math("`$"),
        letters::dollars(0, "x"),
        letters::footnote_reference("", "x"),
        letters::inline_footnote(),
        letters::wikilink("", "x"),
        letters::directive("x"),
        letters::tag(""),
    ]
}

/// Further values of inlines.
fn further_inlines() -> Vec<Letter> {
    vec![
        letters::text("\u{2028}x"),
        letters::text("x\u{85}"),
        letters::text("\u{b}"),
        letters::text("x\t"),
        letters::text("\u{200b}x"),
        letters::text("\n"),
        letters::escape('*'),
        letters::escape('\u{10ffff}'),
        letters::strong(1),
        letters::code("x"),
        letters::code("\\\\|"),
        letters::code("\r\n"),
        letters::link(0, "x"),
        letters::link(1, ""),
        letters::link(2, ""),
        letters::autolink("\\|"),
        letters::image(0, ""),
        letters::image(0, "x"),
        letters::link_reference("x", ""),
        letters::image_reference("x", "\\|"),
        letters::html(""),
        letters::dollars(0, ""),
        letters::dollars(1, "`$"),
        letters::dollars(255, "\\|"),
        letters::tag("é/2"),
        letters::code_math(""),
        letters::code_math("\\|"),
        letters::footnote_reference("x", "\\|"),
        letters::footnote_reference(" ", ""),
        letters::wikilink("\\|", ""),
        letters::wikilink("x", "\\|"),
        letters::directive(""),
        letters::directive("x-"),
    ]
}

/// Every kind, with the values that matter most between records.
pub fn narrow() -> Vec<Letter> {
    [narrow_blocks(), narrow_parts(), narrow_inlines()].concat()
}

/// The narrow set and further values of its kinds.
pub fn wide() -> Vec<Letter> {
    let further = [further_blocks(), further_parts(), further_inlines()];
    [narrow(), further.concat()].concat()
}

#[cfg(test)]
mod tests {
    use super::*;
    use std::collections::BTreeSet;

    #[test]
    fn every_kind_and_no_letter_twice() {
        for letters in [narrow(), wide()] {
            let kinds: BTreeSet<u32> = letters.iter().map(|letter| letter.kind).collect();
            assert!(kinds.into_iter().eq((1..=17).chain(20..=24).chain(31..=53)));
            for (at, letter) in letters.iter().enumerate() {
                assert!(!letters[..at].contains(letter), "{letter:?}");
            }
        }
    }
}
