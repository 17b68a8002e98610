//! All sheets of a few records over a set of them, on their own or behind a
//! beginning.

use crate::{
    letters::{self, Letter},
    plain, Record, RECORD_WORDS,
};

/// How many levels each record is tried at.
pub const LEVELS: u32 = 3;

/// The records of a set, whose texts lie in one text.
pub struct Spelling {
    records: Vec<Record>,
    text: Vec<u8>,
}

impl Spelling {
    pub fn new(letters: &[Letter]) -> Self {
        let mut spelling = Self {
            records: Vec::new(),
            text: Vec::new(),
        };
        for letter in letters {
            let record = spelling.record(0, letter);
            spelling.records.push(record);
        }
        spelling
    }

    fn record(&mut self, level: u32, letter: &Letter) -> Record {
        let mut record = plain(letter.kind, level);
        record[5..8].copy_from_slice(&[letter.a, letter.b, letter.c]);
        for (field, part) in [(8, &letter.first), (10, &letter.second)] {
            if let Some(part) = part {
                record[field..field + 2].copy_from_slice(&self.part(part.as_bytes()));
            }
        }
        record
    }

    fn part(&mut self, value: &[u8]) -> [u32; 2] {
        let length = value.len() as u32;
        if value.is_empty() {
            return [0; 2];
        }
        let held = self.text.windows(value.len()).position(|at| at == value);
        let start = held.unwrap_or_else(|| {
            self.text.extend(value);
            self.text.len() - value.len()
        });
        [start as u32, length]
    }

    /// Shows every sheet of `beginning` and one to `most` records behind it,
    /// at the levels from `lowest` on, [`LEVELS`] of them. `see` says whether
    /// longer sheets that begin with this one are of interest: behind a
    /// record that is refused all are refused for it.
    pub fn sheets(
        &mut self,
        (beginning, lowest): &(Vec<(u32, Letter)>, u32),
        most: usize,
        see: &mut impl FnMut(&[u32], &[u8]) -> bool,
    ) {
        let mut words = Vec::new();
        for (level, letter) in beginning {
            let mut record = self.record(*level, letter);
            put_span(&mut record, words.len());
            words.extend(record);
        }
        self.extend(&mut words, *lowest, most, see);
    }

    fn extend(
        &self,
        words: &mut Vec<u32>,
        lowest: u32,
        most: usize,
        see: &mut impl FnMut(&[u32], &[u8]) -> bool,
    ) {
        if most == 0 {
            return;
        }
        let length = words.len();
        for (at, record) in self.records.iter().enumerate() {
            for level in lowest..lowest + LEVELS {
                let mut record = *record;
                record[1] = level;
                put_span(&mut record, length + at * RECORD_WORDS);
                words.extend(record);
                if see(words, &self.text) {
                    self.extend(words, lowest, most - 1, see);
                }
                words.truncate(length);
            }
        }
    }
}

/// A span by the record's place: none for one in five, and for attributes.
fn put_span(record: &mut Record, place: usize) {
    let place = (place / RECORD_WORDS) as u32;
    if record[0] != 24 && place % 5 != 4 {
        record[2..5].copy_from_slice(&[1, 10 * place, 10 * place + place % 3]);
    }
}

/// A beginning, and the lowest level of what stands behind it.
pub type Beginning = (Vec<(u32, Letter)>, u32);

/// No records.
pub fn nothing() -> Beginning {
    (Vec::new(), 1)
}

/// Beginnings that few records cannot give: cells, items, containers with
/// their tags, what stands in a link, in emphasis and in a directive.
pub fn beginnings() -> Vec<Beginning> {
    let tag = || (2, letters::html_tag("x", "x"));
    let in_item = |tight| {
        let list = (1, letters::list(0, 0, tight));
        vec![list, (2, letters::item(0, None))]
    };
    let mut two_items = in_item(0);
    two_items.push((3, letters::thematic_break()));
    two_items.push((2, letters::item(1, Some(3))));
    let in_paragraph = |letter| vec![(1, letters::paragraph()), (2, letter)];
    let in_cell = vec![
        (1, letters::table(1)),
        (2, letters::row()),
        (3, letters::cell()),
    ];
    let mut in_second_row = in_cell.clone();
    in_second_row.push((2, letters::row()));
    let in_container = |content| vec![(1, letters::html_container(content)), tag(), tag()];
    let in_label = |letter| {
        let directive = (1, letter);
        vec![
            directive,
            (2, letters::attribute("x")),
            (2, letters::text("x")),
        ]
    };
    vec![
        (in_cell.clone(), 4),
        (in_cell, 2),
        (in_second_row, 3),
        (in_item(0), 3),
        (in_item(1), 3),
        (two_items, 2),
        (in_container(0), 2),
        (in_container(1), 2),
        (in_paragraph(letters::link(0, "x")), 3),
        (in_paragraph(letters::link_reference("x", "x")), 3),
        (in_paragraph(letters::emphasis(0)), 3),
        (in_paragraph(letters::delete()), 2),
        (in_paragraph(letters::directive("x")), 3),
        (in_label(letters::leaf_directive("x")), 2),
        (in_label(letters::container_directive("x")), 2),
        (vec![(1, letters::footnote_definition("x"))], 2),
        (
            vec![(1, letters::block_quote()), (2, letters::blank_line())],
            2,
        ),
        (
            vec![
                (1, letters::code_block(1, None, "x")),
                (1, letters::blank_line()),
            ],
            1,
        ),
        (
            vec![(1, letters::list(0, 0, 1)), (1, letters::blank_line())],
            1,
        ),
    ]
}
