//! Random inline trees, dense in what the rules look for, and deep ones.

use cases::{
    draft::Draft,
    letters::{self, Letter},
    names, Numbers,
};

use super::{Case, MOST_RECORDS};

/// Values of texts and code: line endings, white space at the edges, and what
/// only looks like them.
const VALUES: [&str; 24] = [
    "",
    "",
    "x",
    "ab",
    " ",
    " x",
    "x ",
    "x\t",
    "\u{b}x",
    "x\u{85}",
    "\u{a0}x",
    "x\u{2003}",
    "\u{2028}x",
    "x\u{3000}",
    "\u{200b}x",
    "x\u{feff}",
    "\n",
    "\r",
    "a\r\nb",
    "x\n",
    "é€",
    "\\|",
    "a b",
    "🎬",
];

/// Values of math.
const MATHS: [&str; 10] = ["", "x", "`$", "a`$b", "``$", "`", "$`", "` $", "\n", "\\`$"];

/// Names of directives.
const NAMES: [&str; 12] = [
    "a", "Z", "a-b", "ab-CD-e", "", "-", "a-", "-a", "a--b", "a1", "a_b", "é",
];

/// Names of attributes.
const ATTRIBUTES: [&str; 14] = [
    "a", "_", "-", "a1", "_:", "Z-z", "", "1", ":a", "a b", "é", "aé", "a=", " a",
];

/// Scalar values of escapes.
const SCALARS: [char; 16] = [
    '!',
    '*',
    '/',
    ':',
    '@',
    '[',
    '`',
    '{',
    '~',
    '0',
    'A',
    'z',
    ' ',
    '\n',
    '\u{a1}',
    '\u{10ffff}',
];

/// Destinations, identifiers, targets and labels.
const PLACES: [&str; 5] = ["", "", "x", " ", "é\n"];

/// How many children a record gets, most often few.
const COUNTS: [usize; 12] = [0, 1, 1, 1, 1, 2, 2, 2, 3, 3, 4, 6];

struct Maker {
    draft: Draft,
    numbers: Numbers,
    /// How many records the draft may still get.
    left: usize,
}

impl Maker {
    /// For at most `left` inline records.
    fn new(seed: u64, left: usize) -> Self {
        Self {
            draft: Draft::paragraph(seed),
            numbers: Numbers::new(seed + (1 << 32)),
            left,
        }
    }

    fn one<T: Copy>(&mut self, list: &[T]) -> T {
        self.numbers.one(list)
    }

    fn letter(&mut self, kind: u32) -> Letter {
        let value = self.one(&VALUES);
        let place = self.one(&PLACES);
        let label = self.one(&PLACES);
        match kind {
            31 => letters::text(value),
            32 => letters::escape(self.one(&SCALARS)),
            33 => letters::character_reference(),
            34 => letters::emphasis(self.numbers.below(2)),
            35 => letters::strong(self.numbers.below(2)),
            36 => letters::delete(),
            37 => letters::mark(),
            38 => letters::shortcode(),
            39 => letters::code(value),
            40 => letters::link(self.numbers.below(3), place),
            41 => letters::autolink(value),
            42 => letters::image(self.numbers.below(3), place),
            43 => letters::link_reference(place, label),
            44 => letters::image_reference(place, label),
            45 => letters::html(value),
            46 => letters::soft(),
            47 => letters::hard(self.numbers.below(2)),
            48 => self.math(),
            49 => letters::footnote_reference(place, label),
            50 => letters::inline_footnote(),
            51 => letters::wikilink(place, label),
            52 => letters::directive(self.one(&NAMES)),
            _ => letters::tag(&names::tag_name(&mut self.numbers)),
        }
    }

    fn math(&mut self) -> Letter {
        let value = self.one(&MATHS);
        match self.numbers.below(5) {
            0 | 1 => letters::dollars(0, value),
            2 => letters::dollars(self.numbers.below(255) + 1, value),
            _ => letters::code_math(value),
        }
    }

    /// Adds a letter where there is room, and says whether there was.
    fn add(&mut self, level: u32, letter: &Letter) -> bool {
        let room = self.left > 0 && level <= 64;
        if room {
            self.draft.add(level, letter);
            self.left -= 1;
        }
        room
    }

    fn attributes(&mut self, level: u32) {
        for _ in 0..self.numbers.below(4) {
            let name = self.one(&ATTRIBUTES);
            self.add(level, &letters::attribute(name));
        }
    }

    /// Adds `count` children of `parent`, and what is under them.
    fn children(&mut self, level: u32, parent: u32, count: usize) {
        let mut before = 0;
        for _ in 0..count {
            let kind = self.numbers.inline_kind(parent, before);
            let letter = self.letter(kind);
            if !self.add(level, &letter) {
                return;
            }
            if kind == 52 {
                self.attributes(level + 1);
            }
            if letter.is_container() {
                let count = self.one(&COUNTS);
                self.children(level + 1, kind, count);
            }
            before = kind;
        }
    }
}

/// A paragraph of `records` inline records.
pub fn wide(seed: u64, records: usize) -> Case {
    let mut maker = Maker::new(seed, records);
    while maker.left > 0 {
        maker.children(2, 1, 3);
    }
    Case::new(maker.draft.done())
}

/// A paragraph of containers, each in the one before, down to level 63, and
/// of children at level 64.
pub fn deep(seed: u64) -> Case {
    let mut maker = Maker::new(seed, MOST_RECORDS - 1);
    let mut parent = 1;
    for level in 2..64 {
        parent = maker.one(&[34, 34, 35, 36, 37, 40, 42, 43, 44, 50, 52]);
        let letter = maker.letter(parent);
        maker.add(level, &letter);
    }
    maker.children(64, parent, 3);
    Case::new(maker.draft.done())
}

/// `count` cases of 2 to 17 inline records.
pub fn all(count: u64) -> Vec<Case> {
    let records = |seed: u64| 2 + (seed % 16) as usize;
    (0..count).map(|seed| wide(seed, records(seed))).collect()
}
