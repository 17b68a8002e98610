//! Names of tags, and sheets of them.

use crate::{plain, Numbers, Sheet};

/// Tag names of many scripts, and what only looks like one: nothing, a
/// number or a sign in front, a mark, white space and other signs behind.
const NAMES: [&str; 33] = [
    "a",
    "Z",
    "reel/2",
    "day-1_b",
    "końcowy",
    "łódź/2",
    "σκηνή",
    "жёлтый-7",
    "שקיעה",
    "غروب",
    "夕焼け",
    "해질녘",
    "ตะวัน",
    "संध्या",
    "ᏣᎳᎩ",
    "𐐀𐐨",
    "aⅠ²½٣",
    "ªº",
    "",
    "2",
    "2a",
    "Ⅰa",
    "½",
    "/a",
    "_a",
    "-a",
    "a b",
    "a.b",
    "a×",
    "e\u{301}",
    "\u{301}e",
    "a\u{ad}",
    "a\\|",
];

/// Letters, numbers and signs that a name may have, and characters that it
/// may not, of one to four bytes.
const CHARACTERS: [char; 40] = [
    'a', 'k', 'Z', '0', '9', '/', '_', '-', '@', '[', '`', '{', ' ', '\n', 'ª', '²', '½', '×', '÷',
    'ł', 'ǅ', 'ʰ', '\u{301}', 'σ', 'Ж', '\u{483}', 'א', 'ش', '٣', 'अ', 'ก', 'Ⅷ', 'ↀ', '漢', 'あ',
    '한', '€', '\u{fffd}', '𐐀', '𝟘',
];

/// A listed name, or one of up to five characters, now and then of any
/// character.
pub fn tag_name(numbers: &mut Numbers) -> String {
    if numbers.once_in(2) {
        return numbers.one(&NAMES).into();
    }
    let length = numbers.below(6);
    (0..length).map(|_| character(numbers)).collect()
}

fn character(numbers: &mut Numbers) -> char {
    match numbers.below(8) {
        0 => char::from_u32(numbers.below(0x11_0000)).unwrap_or('a'),
        1 => char::from_u32(numbers.below(0x3_0000)).unwrap_or('a'),
        _ => numbers.one(&CHARACTERS),
    }
}

/// A paragraph that holds a tag of each name, each with its own span.
pub fn tags(names: &[String]) -> Sheet {
    let mut words = plain(1, 1).to_vec();
    let mut text = Vec::new();
    for (index, name) in (0..).zip(names) {
        let mut record = plain(53, 2);
        record[2..5].copy_from_slice(&[1, index, index + 1]);
        record[8..10].copy_from_slice(&[text.len() as u32, name.len() as u32]);
        words.extend(record);
        text.extend(name.as_bytes());
    }
    (words, text)
}

#[cfg(test)]
mod tests {
    use super::*;

    #[test]
    fn parts_are_the_names() {
        let names = ["a", "", "łódź"].map(String::from);
        let (words, text) = tags(&names);
        assert_eq!(words[..2], [1, 1]);
        assert_eq!(words[12..24], [53, 2, 1, 0, 1, 0, 0, 0, 0, 1, 0, 0]);
        assert_eq!(words[24..36], [53, 2, 1, 1, 2, 0, 0, 0, 1, 0, 0, 0]);
        assert_eq!(words[36..], [53, 2, 1, 2, 3, 0, 0, 0, 1, 7, 0, 0]);
        assert_eq!(text, "ałódź".as_bytes());
    }

    /// All that are listed, and many others.
    #[test]
    fn names_differ() {
        let mut numbers = Numbers::new(0);
        let names: std::collections::BTreeSet<String> =
            (0..2000).map(|_| tag_name(&mut numbers)).collect();
        assert!(names.len() > 600, "{}", names.len());
        for listed in NAMES {
            assert!(names.contains(listed), "{listed}");
        }
    }
}
