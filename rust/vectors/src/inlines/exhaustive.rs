//! All paragraphs of up to three inline records over two small alphabets: a
//! wide one for up to two records, and one record a kind, or a few, for three.

use cases::{
    draft::Draft,
    letters::{self, Letter},
    Sheet,
};

use super::Case;

/// The levels of up to three inline records.
const SHAPES: [&[u32]; 8] = [
    &[2],
    &[2, 2],
    &[2, 3],
    &[2, 2, 2],
    &[2, 2, 3],
    &[2, 3, 2],
    &[2, 3, 3],
    &[2, 3, 4],
];

/// Every kind, with the values that matter most between records.
fn narrow() -> Vec<Letter> {
    vec![
        letters::attribute("1"),
        letters::text(""),
        letters::text("x"),
        letters::text(" "),
        letters::text("a\rb"),
        letters::escape('x'),
        letters::character_reference(),
        letters::emphasis(0),
        letters::emphasis(1),
        letters::strong(0),
        letters::delete(),
        letters::mark(),
        letters::shortcode(),
        letters::code(""),
        letters::link(0, ""),
        letters::autolink("x"),
        letters::image(1, ""),
        letters::link_reference("", "x"),
        letters::image_reference("", "x"),
        letters::html(""),
        letters::soft(),
        letters::hard(0),
        letters::hard(1),
        letters::code_math("`$"),
        letters::footnote_reference("", "x"),
        letters::inline_footnote(),
        letters::wikilink("", "x"),
        letters::directive("x"),
        letters::tag(""),
    ]
}

/// The narrow alphabet and further values of its kinds.
fn wide() -> Vec<Letter> {
    let further = vec![
        letters::attribute("a"),
        letters::text("\u{2028}x"),
        letters::text("x\t"),
        letters::text("\n"),
        letters::escape('*'),
        letters::strong(1),
        letters::code("x"),
        letters::code("\r\n"),
        letters::link(0, "x"),
        letters::link(1, ""),
        letters::link(2, ""),
        letters::image(0, ""),
        letters::image(0, "x"),
        letters::link_reference("x", ""),
        letters::image_reference("x", ""),
        letters::dollars(0, "x"),
        letters::dollars(0, ""),
        letters::dollars(1, "`$"),
        letters::code_math(""),
        letters::code_math("x"),
        letters::footnote_reference("x", ""),
        letters::wikilink("x", ""),
        letters::directive(""),
        letters::directive("x-"),
        letters::tag("é/2"),
    ];
    narrow().into_iter().chain(further).collect()
}

/// The spellings of a shape whose every record is placed.
fn placed<'a>(shape: &[u32], alphabet: &'a [Letter]) -> Vec<Vec<&'a Letter>> {
    let Some((&level, shape)) = shape.split_last() else {
        return vec![Vec::new()];
    };
    let mut all = Vec::new();
    for before in placed(shape, alphabet) {
        for letter in alphabet {
            let mut spelling = before.clone();
            spelling.push(letter);
            let levels = shape.iter().copied().chain([level]);
            let (words, text) = sheet(0, levels, &spelling);
            match oracle::refusal(&words, &text) {
                (0, 0) => all.push(spelling),
                refusal => assert_eq!(refusal.0, 6, "misplaced, or accepted"),
            }
        }
    }
    all
}

fn sheet(seed: u64, levels: impl IntoIterator<Item = u32>, spelling: &[&Letter]) -> Sheet {
    let mut draft = Draft::paragraph(seed);
    for (level, letter) in levels.into_iter().zip(spelling) {
        draft.add(level, letter);
    }
    draft.done()
}

/// Every case, by its shape.
pub fn all() -> Vec<Vec<Case>> {
    let (narrow, wide) = (narrow(), wide());
    let of_shape = |shape: &&[u32]| {
        let alphabet = if shape.len() < 3 { &wide } else { &narrow };
        let spellings = placed(shape, alphabet).into_iter().enumerate();
        spellings
            .map(|(seed, spelling)| Case::new(sheet(seed as u64, shape.iter().copied(), &spelling)))
            .collect()
    };
    SHAPES.iter().map(of_shape).collect()
}
