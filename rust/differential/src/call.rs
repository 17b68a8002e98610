//! One call, and what of it differs.

use std::{fmt, hint::black_box};

use crate::{
    demand::{broken, Broken},
    expected::{Call, Expected},
};

/// How many words on either side of the report or the marks must stay too.
const AROUND: usize = 4;

/// What the word at a place is before the call.
fn before(at: usize) -> u32 {
    (at as u32).wrapping_mul(0x9E37_79B1) ^ 0xA5A5_5A5A
}

/// What differs first.
#[derive(Clone, PartialEq, Eq, Debug)]
pub enum Difference {
    /// The answer: what is wanted, what was found.
    Answer { wanted: u64, found: u64 },
    /// A word of the list, a mark, or a word that must stay.
    Word { at: usize, wanted: u32, found: u32 },
    /// A word beside the report or the marks.
    Outside,
    /// A word of the sheet or a byte of the text.
    Lent,
    /// What both functions answer is not what demand 3 says.
    Demand(Broken),
}

impl Call {
    /// How many words are lent to be written into.
    fn words(self) -> usize {
        match self {
            Self::Check(words) | Self::Set(words) => words,
        }
    }

    /// The C function's answer.
    pub fn made(self, sheet: &[u32], text: &[u8], words: &mut [u32]) -> u64 {
        match self {
            Self::Check(_) => reedsander::check_raw(sheet, text, words),
            Self::Set(_) => reedsander::set_raw(sheet, text, words),
        }
    }
}

/// What a call was compared to: its answer, and what differs.
pub struct Compared {
    pub found: u64,
    pub difference: Option<Difference>,
}

/// Calls, and says what differs.
pub fn compared(sheet: &[u32], text: &[u8], call: Call, expected: &Expected) -> Compared {
    let length = call.words();
    let mut words: Vec<u32> = (0..length + 2 * AROUND).map(before).collect();
    let lent = (sheet.to_vec(), text.to_vec());
    let found = call.made(sheet, text, &mut words[AROUND..AROUND + length]);

    let (number, low) = expected.answer(call);
    let wanted = u64::from(number) << 32 | low as u64;
    let difference = if found != wanted {
        Some(Difference::Answer { wanted, found })
    } else if lent != (black_box(sheet).to_vec(), black_box(text).to_vec()) {
        // What is lent to be read must not be taken for unchanged unread.
        Some(Difference::Lent)
    } else {
        word(&words, length, expected.written(call))
    };
    Compared { found, difference }
}

/// The first word that is not as wanted: `written` at the front of those that
/// were lent, and all others as before.
fn word(words: &[u32], length: usize, written: &[u32]) -> Option<Difference> {
    let wanted = |at: usize| {
        let place = at.checked_sub(AROUND);
        let written = place.and_then(|place| written.get(place)).copied();
        written.unwrap_or_else(|| before(at))
    };
    let at = (0..words.len()).find(|&at| words[at] != wanted(at))?;
    let inside = (AROUND..AROUND + length).contains(&at);
    Some(match inside {
        false => Difference::Outside,
        true => Difference::Word {
            at: at - AROUND,
            wanted: wanted(at),
            found: words[at],
        },
    })
}

/// What differs: in a call, or without one in what demand 3 says of both
/// functions.
pub fn differ(
    sheet: &[u32],
    text: &[u8],
    call: Option<Call>,
    expected: &Expected,
) -> Option<Difference> {
    match call {
        Some(call) => compared(sheet, text, call, expected).difference,
        None => broken(sheet, text, expected).map(Difference::Demand),
    }
}

impl fmt::Display for Difference {
    fn fmt(&self, formatter: &mut fmt::Formatter<'_>) -> fmt::Result {
        let halves = |answer: &u64| (answer >> 32, answer & u64::from(u32::MAX));
        match self {
            Self::Answer { wanted, found } => {
                let (wanted, found) = (halves(wanted), halves(found));
                write!(formatter, "answer {found:?}, wanted {wanted:?}")
            }
            Self::Word { at, wanted, found } => {
                write!(formatter, "word {at} is {found}, wanted {wanted}")
            }
            Self::Outside => formatter.write_str("a word beside those lent was changed"),
            Self::Lent => formatter.write_str("the sheet or the text was changed"),
            Self::Demand(broken) => write!(formatter, "demand 3: {broken}"),
        }
    }
}

#[cfg(test)]
mod tests {
    use super::*;

    /// Five words, of which two are written.
    #[test]
    fn words() {
        let mut words: Vec<u32> = (0..5 + 2 * AROUND).map(before).collect();
        assert_eq!(word(&words, 5, &[]), None);
        let wanted = [7, 8];
        words[AROUND..AROUND + 2].copy_from_slice(&wanted);
        assert_eq!(word(&words, 5, &wanted), None);
        assert!(matches!(
            word(&words, 5, &[7, 9]),
            Some(Difference::Word {
                at: 1,
                wanted: 9,
                found: 8
            })
        ));
        assert!(matches!(
            word(&words, 5, &[7]),
            Some(Difference::Word { at: 1, .. })
        ));
        for (at, inside) in [(AROUND + 4, true), (AROUND + 5, false), (0, false)] {
            let mut changed = words.clone();
            changed[at] ^= 1;
            let found = word(&changed, 5, &wanted);
            assert_eq!(found == Some(Difference::Outside), !inside);
            assert_eq!(
                matches!(found, Some(Difference::Word { at: 4, .. })),
                inside
            );
        }
    }
}
