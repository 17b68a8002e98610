//! Documents made of XML as cmark-gfm writes it, and their sources.

use cases::RECORD_WORDS;

use crate::notes::Notes;

/// A line for each node of the document: its depth, its name, its A, B and C
/// where one is not 0, its texts, and what the source has at its span.
fn outline(xml: &str, markdown: &str) -> Vec<String> {
    let document = super::document(xml, markdown).unwrap();
    let notes = Notes::of(&document);
    let text = std::str::from_utf8(notes.sheet().text()).unwrap();
    let records = notes.sheet().words().chunks(RECORD_WORDS);
    let lines = notes.nodes().iter().zip(records).map(|(node, record)| {
        let mut line = format!("{}{}", "  ".repeat(record[1] as usize - 1), node.name());
        if record[5..8] != [0; 3] {
            line += &format!(" {:?}", &record[5..8]);
        }
        for part in [&record[8..10], &record[10..12]] {
            let part = &text[part[0] as usize..][..part[1] as usize];
            if !part.is_empty() {
                line += &format!(" {part:?}");
            }
        }
        match node.span() {
            Some((start, end)) => line + &spanned(markdown, start, end),
            None => line,
        }
    });
    lines.collect()
}

/// What the source has at a span, or the span where that ends before it
/// begins: cmark-gfm has such ends.
fn spanned(markdown: &str, start: u32, end: u32) -> String {
    match markdown.get(start as usize..end as usize) {
        Some(source) => format!(" at {source:?}"),
        None => format!(" from {start} to {end}"),
    }
}

/// The document of `made/NAME.xml`, which is what cmark-gfm 0.29.0.gfm.6 writes
/// of `made/NAME.md`, has the outline `made/NAME.outline`.
macro_rules! made {
    ($($name:ident)*) => {$(
        #[test]
        fn $name() {
            let xml = include_str!(concat!("made/", stringify!($name), ".xml"));
            let markdown = include_str!(concat!("made/", stringify!($name), ".md"));
            let wanted = include_str!(concat!("made/", stringify!($name), ".outline"));
            let wanted: Vec<&str> = wanted.lines().collect();
            assert_eq!(outline(xml, markdown), wanted);
        }
    )*};
}

made! { blocks ends inlines table }

/// Elements that cmark-gfm does not write, or not there.
#[test]
fn unknown_elements() {
    for (inside, error) in [
        ("<item sourcepos=\"1:1-1:1\"/>", "a block <item>"),
        (
            "<paragraph sourcepos=\"1:1-1:1\"><list/></paragraph>",
            "an inline <list>",
        ),
        ("<list><paragraph/></list>", "<paragraph> in a list"),
        ("<paragraph/>", "a paragraph without a place"),
        ("<heading sourcepos=\"1:1-1:1\"/>", "a heading's level"),
    ] {
        let xml = format!("<document>{inside}</document>");
        let found = super::document(&xml, "x");
        assert_eq!(found.err().as_deref(), Some(error), "{inside}");
    }
}
