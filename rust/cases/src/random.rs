//! Random trees of all kinds, dense in what the rules look for.

use crate::{
    draft::Draft,
    letters::{self, Letter},
    names, Numbers, Sheet,
};

/// Values: line endings, white space at the edges, pipes and backslashes,
/// fences, and what only looks like them.
const VALUES: [&str; 40] = [
    "",
    "",
    "",
    "x",
    "x",
    "ab",
    " ",
    "\t",
    " x",
    "x ",
    "x\t",
    "\u{b}x",
    "x\u{b}",
    "\u{85}",
    "x\u{85}",
    "\u{a0}x",
    "x\u{2003}",
    "\u{2028}x",
    "x\u{2028}",
    "x\u{3000}",
    "\u{200b}x",
    "x\u{feff}",
    "\n",
    "\r",
    "\r\n",
    "a\r\nb",
    "x\n",
    "x\n\n",
    "\n\nx",
    " \r\nx",
    "é€",
    "\\|",
    "\\\\|",
    "\\\\\\|",
    "|",
    "a\\|b",
    "🎬",
    "`$",
    "---",
    "+++ \t",
];

/// What a value may be made of, character by character.
const CHARACTERS: [&str; 20] = [
    "\\", "\\", "|", "|", "\r", "\n", "\r\n", " ", "\t", "`", "$", "\u{85}", "\u{b}", "\u{2028}",
    "-", "+", "---", "a", "é", "\u{a0}",
];

/// Values of math.
const MATHS: [&str; 12] = [
    "", "x", "`$", "a`$b", "``$", "`", "$`", "` $", "\n", "\\`$", "\\|", "$",
];

/// Names of directives.
const NAMES: [&str; 14] = [
    "a", "x", "Z", "a-b", "ab-CD-e", "", "-", "a-", "-a", "a--b", "a1", "a_b", "é", " a",
];

/// Names of attributes.
const ATTRIBUTES: [&str; 14] = [
    "a", "_", "-", "a1", "_:", "Z-z", "", "1", ":a", "a b", "é", "aé", "a=", " a",
];

/// Names of HTML tags, and how they are written.
const TAGS: [&str; 6] = ["x", "x", "x", "X", "", "x "];

/// Values of frontmatter.
const FRONT: [&str; 12] = [
    "",
    "x",
    "---",
    "+++",
    "x\n---",
    "x\r\n+++\t \r\nx",
    "--- \n",
    " ---",
    "----",
    "+++x",
    "x\r---\r",
    "--",
];

/// Values of code blocks.
const CODE: [&str; 14] = [
    "", "x", "x\n", "x\r\n", "\nx", " \nx", "x\n ", "x\n\t\n", "x\r\r", "x\r\r\n", "\r\nx", " ",
    "\u{b}\n", "x\n\nx",
];

/// Titles of alerts.
const TITLES: [&str; 8] = ["", "x", " x", "x ", "\t", "x y", "\u{a0}x", "x\n"];

/// Scalar values of escapes.
const SCALARS: [char; 18] = [
    '!',
    '*',
    '/',
    ':',
    '@',
    '[',
    '`',
    '{',
    '~',
    '0',
    'A',
    'z',
    ' ',
    '\n',
    '\0',
    '\u{7f}',
    '\u{a1}',
    '\u{10ffff}',
];

/// Identifiers, destinations, targets and labels.
const PLACES: [&str; 8] = ["", "", "x", "x", " ", " \t\r\n", "é\n", "\\|"];

/// How many children a record gets, most often few.
const COUNTS: [usize; 12] = [0, 1, 1, 1, 1, 2, 2, 2, 3, 3, 4, 6];

/// Numbers of items.
const ITEM_NUMBERS: [u32; 6] = [0, 1, 999_999_998, 999_999_999, 1_000_000_000, u32::MAX];

struct Maker {
    draft: Draft,
    numbers: Numbers,
    /// How many records the draft may still get.
    left: usize,
}

/// A tree of at most `records` records.
pub fn tree(seed: u64, records: usize) -> Sheet {
    let mut maker = Maker::new(seed, records);
    let count = 1 + maker.numbers.index(4);
    maker.blocks(1, count);
    maker.draft.done()
}

/// A tree whose first records stand each under the one before, down to any
/// level that a sheet may have.
pub fn deep(seed: u64, records: usize) -> Sheet {
    let mut maker = Maker::new(seed, records + 128);
    let bottom = 4 + maker.numbers.below(61);
    let mut level = 1;
    while level + 3 <= bottom {
        level = maker.container(level);
    }
    maker.left = maker.left.min(records);
    let count = maker.one(&COUNTS);
    maker.blocks(level, count);
    if maker.numbers.once_in(2) {
        let level = 1 + maker.numbers.below(level);
        maker.sibling(level);
    }
    maker.draft.done()
}

impl Maker {
    fn new(seed: u64, left: usize) -> Self {
        Self {
            draft: Draft::new(seed),
            numbers: Numbers::new(seed ^ 1 << 63),
            left,
        }
    }

    fn one<T: Copy>(&mut self, list: &[T]) -> T {
        self.numbers.one(list)
    }

    /// One of the list, or something of a few characters.
    fn text(&mut self, list: &[&str]) -> String {
        if self.numbers.below(4) > 0 {
            return self.one(list).into();
        }
        let length = self.numbers.below(7);
        (0..length).map(|_| self.one(&CHARACTERS)).collect()
    }

    /// Adds a letter where there is room, and says whether there was.
    fn add(&mut self, level: u32, letter: &Letter) -> bool {
        let room = self.left > 0 && level <= 64;
        if room {
            self.draft.add(level, letter);
            self.left -= 1;
        }
        room
    }

    // Blocks.

    /// The kind of the next block after `before`.
    fn block_kind(&mut self, before: u32) -> u32 {
        match self.numbers.below(12) {
            // Beside a list another, or a blank line before it.
            0 | 1 if before == 6 => self.one(&[6, 6, 17]),
            // After what takes indented code.
            0 | 1 if before == 7 || before == 11 => self.one(&[7, 7, 17]),
            0 | 1 if before == 17 => self.one(&[6, 7, 17]),
            2..=4 => 1,
            5 => self.one(&[6, 12]),
            6 => 17,
            7 => self.one(&[4, 5, 9, 11, 16]),
            _ => 1 + self.numbers.below(17),
        }
    }

    fn block(&mut self, kind: u32) -> Letter {
        match kind {
            1 => letters::paragraph(),
            2 => letters::heading(self.numbers.one(&[0, 1, 2, 6, 7, 255])),
            3 => letters::thematic_break(),
            4 => letters::block_quote(),
            5 if self.numbers.once_in(2) => letters::alert(None),
            5 => letters::alert(Some(&self.text(&TITLES))),
            6 => {
                let [ordered, tight] = [self.numbers.below(2), self.numbers.below(2)];
                letters::list(ordered, self.numbers.below(5), tight)
            }
            7 => self.code_block(),
            8 => letters::html_block(),
            9 => letters::html_container(self.numbers.below(2)),
            10 => {
                let [identifier, destination] = [self.text(&PLACES), self.text(&PLACES)];
                letters::definition(&identifier, self.numbers.below(3), &destination)
            }
            11 => letters::footnote_definition(&self.text(&PLACES)),
            12 => letters::table(self.numbers.one(&[0, 1, 1, 1, 2, 2, 3, 70_000, u32::MAX])),
            13 => letters::math_block(),
            14 => {
                let value = self.text(&FRONT);
                letters::frontmatter(self.numbers.below(2), &value)
            }
            15 => letters::leaf_directive(&self.text(&NAMES)),
            16 => letters::container_directive(&self.text(&NAMES)),
            _ => letters::blank_line(),
        }
    }

    fn code_block(&mut self) -> Letter {
        let value = self.text(&CODE);
        let info = self.one(&[None, None, Some(""), Some("x")]);
        letters::code_block(self.one(&[0, 1, 1]), info, &value)
    }

    /// Adds `count` blocks, and what is under them.
    fn blocks(&mut self, level: u32, count: usize) {
        let mut before = 0;
        for _ in 0..count {
            let kind = self.block_kind(before);
            let letter = self.block(kind);
            // A container without its tags is refused.
            if kind == 9 && (self.left < 3 || level >= 64) {
                continue;
            }
            if !self.add(level, &letter) {
                return;
            }
            self.under(level + 1, &letter);
            before = kind;
        }
    }

    /// Adds what stands under a block.
    fn under(&mut self, level: u32, letter: &Letter) {
        let count = self.one(&COUNTS);
        match letter.kind {
            1 | 2 => self.inlines(level, letter.kind, count),
            4 | 5 | 11 => self.blocks(level, count),
            6 => self.items(level, count),
            9 => {
                self.tags(level);
                self.content(level, letter.a);
            }
            12 => self.rows(level, letter.a),
            15 => self.label(level, letter.kind),
            16 => {
                self.label(level, letter.kind);
                self.blocks(level, count);
            }
            _ => {}
        }
    }

    fn items(&mut self, level: u32, count: usize) {
        for _ in 0..count {
            let letter = self.item();
            if !self.add(level, &letter) {
                return;
            }
            let count = self.one(&[0, 1, 1, 1, 2, 2, 3]);
            self.blocks(level + 1, count);
        }
    }

    fn item(&mut self) -> Letter {
        let number = self.numbers.once_in(3);
        let number = number.then(|| self.one(&ITEM_NUMBERS));
        letters::item(self.one(&[0, 0, 1, 2]), number)
    }

    /// Rows, most often of as many cells as the table wants.
    fn rows(&mut self, level: u32, alignments: u32) {
        for _ in 0..self.one(&[0, 1, 1, 2, 2, 3]) {
            if !self.add(level, &letters::row()) {
                return;
            }
            let cells = if self.numbers.below(4) > 0 {
                alignments.min(3)
            } else {
                self.numbers.below(4)
            };
            for _ in 0..cells {
                if self.add(level + 1, &letters::cell()) {
                    let count = self.one(&COUNTS);
                    self.inlines(level + 2, 22, count);
                }
            }
        }
    }

    fn tags(&mut self, level: u32) {
        for _ in 0..2 {
            let (name, raw) = (self.one(&TAGS), self.one(&TAGS));
            self.add(level, &letters::html_tag(name, raw));
        }
    }

    /// What stands behind a container's tags.
    fn content(&mut self, level: u32, sort: u32) {
        let count = self.one(&COUNTS);
        if sort == 0 {
            self.blocks(level, count);
        } else {
            self.inlines(level, 9, count);
        }
    }

    fn label(&mut self, level: u32, kind: u32) {
        for _ in 0..self.one(&[0, 0, 1, 2]) {
            let name = self.text(&ATTRIBUTES);
            self.add(level, &letters::attribute(&name));
        }
        let count = self.one(&COUNTS);
        self.inlines(level, kind, count);
    }

    // Deep trees.

    /// Adds a container of blocks with what it needs, and says the level of
    /// the blocks in it.
    fn container(&mut self, level: u32) -> u32 {
        let kind = self.one(&[4, 5, 6, 6, 6, 9, 11, 16]);
        let mut letter = self.block(kind);
        letter.a = if kind == 9 { 0 } else { letter.a };
        self.add(level, &letter);
        match kind {
            6 => {
                let item = self.item();
                self.add(level + 1, &item);
                level + 2
            }
            9 => {
                self.tags(level + 1);
                level + 1
            }
            _ => level + 1,
        }
    }

    /// Adds what may stand at a level beside any record there: a block, or an
    /// item where the level's last record is one.
    fn sibling(&mut self, level: u32) {
        let item = self.draft.last_at(level) == Some(20);
        if item {
            let letter = self.item();
            self.add(level, &letter);
            self.blocks(level + 1, 2);
        } else {
            self.blocks(level, 2);
        }
    }

    // Inlines.

    fn inline(&mut self, kind: u32) -> Letter {
        match kind {
            32 => letters::escape(self.one(&SCALARS)),
            33 => letters::character_reference(),
            34 => letters::emphasis(self.numbers.below(2)),
            35 => letters::strong(self.numbers.below(2)),
            36 => letters::delete(),
            37 => letters::mark(),
            38 => letters::shortcode(),
            46 => letters::soft(),
            47 => letters::hard(self.numbers.below(2)),
            48 => self.math(),
            50 => letters::inline_footnote(),
            52 => letters::directive(&self.text(&NAMES)),
            _ => self.valued(kind),
        }
    }

    /// The inlines of one value, or of two.
    fn valued(&mut self, kind: u32) -> Letter {
        let value = self.text(&VALUES);
        let [place, label] = [self.text(&PLACES), self.text(&PLACES)];
        let destination = self.numbers.below(3);
        match kind {
            31 => letters::text(&value),
            39 => letters::code(&value),
            40 => letters::link(destination, &place),
            41 => letters::autolink(&value),
            42 => letters::image(destination, &place),
            43 => letters::link_reference(&place, &label),
            44 => letters::image_reference(&place, &label),
            45 => letters::html(&value),
            49 => letters::footnote_reference(&place, &label),
            51 => letters::wikilink(&place, &label),
            _ => letters::tag(&names::tag_name(&mut self.numbers)),
        }
    }

    fn math(&mut self) -> Letter {
        let value = self.text(&MATHS);
        match self.numbers.below(5) {
            0 | 1 => letters::dollars(0, &value),
            2 => letters::dollars(self.numbers.below(255) + 1, &value),
            _ => letters::code_math(&value),
        }
    }

    /// Adds `count` inlines under `parent`, and what is under them.
    fn inlines(&mut self, level: u32, parent: u32, count: usize) {
        let mut before = 0;
        for _ in 0..count {
            let kind = self.numbers.inline_kind(parent, before);
            let letter = self.inline(kind);
            if !self.add(level, &letter) {
                return;
            }
            if kind == 52 {
                self.label(level + 1, kind);
            } else if letter.is_container() {
                let count = self.one(&COUNTS);
                self.inlines(level + 1, kind, count);
            }
            before = kind;
        }
    }
}

#[cfg(test)]
mod tests {
    use super::*;
    use crate::RECORD_WORDS;
    use std::collections::BTreeSet;

    #[test]
    fn every_kind_and_level() {
        let mut kinds = BTreeSet::new();
        let mut levels = BTreeSet::new();
        for seed in 0..2000 {
            let (words, _) = if seed % 4 == 0 {
                deep(seed, 20)
            } else {
                tree(seed, 20)
            };
            for record in words.chunks(RECORD_WORDS) {
                kinds.insert(record[0]);
                levels.insert(record[1]);
            }
        }
        assert!(kinds.into_iter().eq((1..=17).chain(20..=24).chain(31..=53)));
        assert!(levels.into_iter().eq(1..=64));
    }

    #[test]
    fn same_seed_same_tree() {
        assert_eq!(tree(5, 20), tree(5, 20));
        assert_eq!(deep(5, 20), deep(5, 20));
        assert!((0..100).any(|seed| tree(seed, 20) != tree(seed + 1, 20)));
    }

    #[test]
    fn no_more_records() {
        for seed in 0..500 {
            assert!(tree(seed, 12).0.len() <= 12 * RECORD_WORDS);
        }
    }
}
