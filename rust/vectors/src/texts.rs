//! The texts of the text files, in a fixed order, none twice in one file.

use std::collections::HashSet;

/// A list of texts that holds none twice.
#[derive(Default)]
struct Texts {
    list: Vec<Vec<u8>>,
    held: HashSet<Vec<u8>>,
}

impl Texts {
    fn add(&mut self, text: Vec<u8>) {
        if self.held.insert(text.clone()) {
            self.list.push(text);
        }
    }

    fn add_all(&mut self, texts: impl IntoIterator<Item = Vec<u8>>) {
        texts.into_iter().for_each(|text| self.add(text));
    }
}

/// All strings over `alphabet` of length 0 to `longest`, shorter ones first.
pub fn strings(alphabet: &[u8], longest: usize) -> Vec<Vec<u8>> {
    let mut all = vec![Vec::new()];
    let mut from = 0;
    for _ in 0..longest {
        let to = all.len();
        for at in from..to {
            for &byte in alphabet {
                all.push([&all[at][..], &[byte]].concat());
            }
        }
        from = to;
    }
    all
}

/// Unicode's table 3-7, well-formed UTF-8 byte sequences: for each row the
/// first and the last byte of each column.
const TABLE: [&[(u8, u8)]; 9] = [
    &[(0x00, 0x7F)],
    &[(0xC2, 0xDF), (0x80, 0xBF)],
    &[(0xE0, 0xE0), (0xA0, 0xBF), (0x80, 0xBF)],
    &[(0xE1, 0xEC), (0x80, 0xBF), (0x80, 0xBF)],
    &[(0xED, 0xED), (0x80, 0x9F), (0x80, 0xBF)],
    &[(0xEE, 0xEF), (0x80, 0xBF), (0x80, 0xBF)],
    &[(0xF0, 0xF0), (0x90, 0xBF), (0x80, 0xBF), (0x80, 0xBF)],
    &[(0xF1, 0xF3), (0x80, 0xBF), (0x80, 0xBF), (0x80, 0xBF)],
    &[(0xF4, 0xF4), (0x80, 0x8F), (0x80, 0xBF), (0x80, 0xBF)],
];

/// For each row and each of its columns: the first and the last byte, one
/// below and one above, with each other column at its first or its last.
fn boundaries() -> Vec<Vec<u8>> {
    let mut all = Vec::new();
    for row in TABLE {
        for (column, (first, last)) in row.iter().enumerate() {
            let bytes = [
                Some(*first),
                Some(*last),
                first.checked_sub(1),
                last.checked_add(1),
            ];
            for byte in bytes.into_iter().flatten() {
                // Bit k of `ends` says at which end column k stands.
                for ends in 0..1 << row.len() {
                    let mut text: Vec<u8> = (0..row.len())
                        .map(|k| {
                            if ends >> k & 1 == 0 {
                                row[k].0
                            } else {
                                row[k].1
                            }
                        })
                        .collect();
                    text[column] = byte;
                    all.push(text);
                }
            }
        }
    }
    all
}

/// Well-formed and ill-formed sequences.
pub fn utf8() -> Vec<Vec<u8>> {
    const PAIRED: [u8; 23] = [
        0x00, 0x7F, 0x80, 0x8F, 0x90, 0x9F, 0xA0, 0xBF, 0xC0, 0xC1, 0xC2, 0xDF, 0xE0, 0xEC, 0xED,
        0xEE, 0xEF, 0xF0, 0xF1, 0xF3, 0xF4, 0xF5, 0xFF,
    ];
    const TRIPLED: [u8; 11] = [
        0x41, 0x80, 0x9F, 0xA0, 0xBF, 0xC2, 0xE0, 0xED, 0xEF, 0xF0, 0xF4,
    ];
    let mut texts = Texts::default();
    for text in boundaries() {
        texts.add(text.clone());
        texts.add([b"a", &text[..]].concat());
        texts.add([&text[..], b"a"].concat());
        if core::str::from_utf8(&text).is_ok() {
            for length in 1..text.len() {
                texts.add(text[..length].to_vec());
                texts.add([&text[..length], b"a"].concat());
            }
        }
    }
    texts.add_all((0..=u8::MAX).map(|byte| vec![byte]));
    texts.add_all(
        strings(&PAIRED, 2)
            .into_iter()
            .filter(|text| text.len() == 2),
    );
    texts.add_all(
        strings(&TRIPLED, 3)
            .into_iter()
            .filter(|text| text.len() == 3),
    );
    texts.list
}

/// The white-space code points, as ranges.
const WHITE: [(u32, u32); 10] = [
    (0x0009, 0x000D),
    (0x0020, 0x0020),
    (0x0085, 0x0085),
    (0x00A0, 0x00A0),
    (0x1680, 0x1680),
    (0x2000, 0x200A),
    (0x2028, 0x2029),
    (0x202F, 0x202F),
    (0x205F, 0x205F),
    (0x3000, 0x3000),
];

/// White space and what stands beside it in the code chart, at the edges of a
/// text, beside characters of one to four bytes.
pub fn white() -> Vec<Vec<u8>> {
    let mut values: Vec<u32> = Vec::new();
    for (first, last) in WHITE {
        for value in first..=last {
            values.extend([value - 1, value, value + 1]);
        }
    }
    values.push(0x180E);
    values.extend(0x200B..=0x200F);
    values.extend([0xFEFF, 0x10000, 0x10FFFF, 0xFFFD]);
    let mut texts = Texts::default();
    for value in values {
        let white = char::from_u32(value).expect("no surrogate stands above");
        texts.add(white.to_string().into_bytes());
        for other in ['x', '\u{E9}', '\u{20AC}', '\u{1F3AC}'] {
            texts.add(format!("{white}{other}").into_bytes());
            texts.add(format!("{other}{white}").into_bytes());
        }
        texts.add(format!("{white}{white}").into_bytes());
    }
    texts.list
}

/// Line endings, blanks and fences. A fence has text before and after it of
/// at most three bytes on a side, and four on both.
pub fn lines() -> Vec<Vec<u8>> {
    const AROUND: usize = 4;
    let mut texts = Texts::default();
    texts.add_all(strings(b"a \t\r\n-", 4));
    texts.add_all(strings(b"- \n", 5));
    texts.add_all(strings(b"+\r\n", 5));
    let sides = strings(b" \t\r\na-+", 3);
    for fence in [&b"---"[..], b"+++"] {
        for before in &sides {
            for after in &sides {
                if before.len() + after.len() <= AROUND {
                    texts.add([&before[..], fence, after].concat());
                }
            }
        }
    }
    texts.list
}

/// Names of directives and attributes, and what stands beside letters and
/// digits in the code chart.
pub fn names() -> Vec<Vec<u8>> {
    let mut texts = Texts::default();
    texts.add_all(strings(b"aZ-2_:", 5));
    texts.add_all(strings(b"gzA@[`{/09;", 3));
    for letter in ["\u{E9}", "\u{3A9}", "\u{17F}"] {
        for (before, after) in [
            ("", ""),
            ("a", ""),
            ("", "a"),
            ("a", "a"),
            ("a-", ""),
            ("", "-a"),
            ("_", ":"),
        ] {
            texts.add(format!("{before}{letter}{after}").into_bytes());
        }
    }
    texts.list
}

/// Tag names and what is none: each code point where the letters or the
/// numbers of the Rust begin or end, and its neighbour, alone and behind `a`;
/// and strings over the signs that a tag may have, digits and letters.
pub fn tags() -> Vec<Vec<u8>> {
    let mut texts = Texts::default();
    for edge in edges() {
        texts.add(edge.to_string().into_bytes());
        texts.add(format!("a{edge}").into_bytes());
    }
    texts.add_all(strings(b"aZ9/_-", 4));
    texts.add_all(strings(b"@[`{.:0#", 2));
    for name in [
        "ko\u{144}cowy",
        "\u{3c3}\u{3ba}\u{3b7}\u{3bd}\u{3ae}/2",
        "\u{2160}a",
    ] {
        texts.add(name.as_bytes().to_vec());
        texts.add(format!("{name} ").into_bytes());
        texts.add([name.as_bytes(), b"\xC3"].concat());
    }
    texts.list
}

/// The characters that differ from the one before or the one behind in
/// whether they are a tag, or can continue one.
fn edges() -> Vec<char> {
    let kind = |value: char| {
        let continued = format!("a{value}");
        let alone = oracle::is_tag_name(&value.to_string());
        (alone, oracle::is_tag_name(&continued))
    };
    let all: Vec<_> = ('\0'..=char::MAX)
        .map(|value| (value, kind(value)))
        .collect();
    let mut list = Vec::new();
    for pair in all.windows(2) {
        let [(before, one), (value, other)] = pair else {
            unreachable!("windows of two");
        };
        if one != other {
            list.extend([*before, *value]);
        }
    }
    list
}

/// Values of cells and of math, and identifiers of definitions.
pub fn pipes() -> Vec<Vec<u8>> {
    let mut texts = Texts::default();
    texts.add_all(strings(b"\\|a", 6));
    texts.add_all(strings(b"`$a", 5));
    texts.add_all(strings(b" \t\r\na", 5));
    texts.list
}

#[cfg(test)]
mod tests {
    use super::*;

    #[test]
    fn strings_are_all_and_shorter_first() {
        let expected: [&[u8]; 7] = [b"", b"a", b"b", b"aa", b"ab", b"ba", b"bb"];
        assert_eq!(strings(b"ab", 2), expected);
        assert_eq!(strings(b"abc", 5).len(), 364);
    }

    #[test]
    fn no_text_twice() {
        for texts in [utf8(), white(), lines(), names(), tags(), pipes()] {
            let held: HashSet<&Vec<u8>> = texts.iter().collect();
            assert_eq!(held.len(), texts.len());
        }
    }

    #[test]
    fn white_holds_the_25() {
        let count: u32 = WHITE.iter().map(|(first, last)| last - first + 1).sum();
        assert_eq!(count, 25);
        let texts = white();
        for (first, last) in WHITE {
            for value in first - 1..=last + 1 {
                let text = char::from_u32(value).unwrap().to_string().into_bytes();
                assert!(texts.contains(&text));
            }
        }
    }

    #[test]
    fn fences_have_every_text_after() {
        let texts: HashSet<Vec<u8>> = lines().into_iter().collect();
        for side in strings(b" \t\r\na-+", 3) {
            for fence in [&b"---"[..], b"+++"] {
                assert!(texts.contains(&[fence, &side].concat()));
                assert!(texts.contains(&[&side, fence].concat()));
            }
        }
    }

    /// The table is the standard library's: the corners of each row are
    /// well-formed, and one step outside is not, or is in another row.
    #[test]
    fn table_is_utf8() {
        let inside = |text: &[u8]| {
            TABLE.iter().any(|row| {
                row.len() == text.len()
                    && row
                        .iter()
                        .zip(text)
                        .all(|((first, last), byte)| (first..=last).contains(&byte))
            })
        };
        for text in boundaries() {
            assert_eq!(
                core::str::from_utf8(&text).is_ok(),
                inside(&text),
                "{text:X?}"
            );
        }
    }
}
