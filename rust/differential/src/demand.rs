//! Demand 3, tested on what the two compiled functions answer: the machine's
//! stops and the check's list agree.

use std::fmt;

use oracle::{Step, STOP_RULES};

use crate::expected::{entries, Expected};

/// What no mark is: a number is at most 999,999,999 and the records behind it.
const NO_MARK: u32 = u32::MAX;

/// A sentence of demand 3 that does not hold.
#[derive(Clone, Copy, PartialEq, Eq, Debug)]
pub enum Broken {
    /// "it stops exactly when the list holds a rule named beside a stop"
    Exactly,
    /// "at a stop the list holds a rule of that very stop whose path begins
    /// with that of the block"
    Beside,
    /// "with no stop it opens and closes every record exactly once"
    Once,
}

impl fmt::Display for Broken {
    fn fmt(&self, formatter: &mut fmt::Formatter<'_>) -> fmt::Result {
        formatter.write_str(match self {
            Self::Exactly => "a stop and a rule named beside one are not there together",
            Self::Beside => "no rule of that stop in the block it stopped in",
            Self::Once => "no stop, and not every record was opened and closed",
        })
    }
}

/// The sentence that does not hold of the two compiled functions, and of the
/// plain machine's run. Of a sheet that is refused nothing is said.
pub fn broken(sheet: &[u32], text: &[u8], expected: &Expected) -> Option<Broken> {
    if !expected.is_accepted() {
        return None;
    }
    let mut report = vec![0; expected.list.len()];
    let mut marks = vec![NO_MARK; expected.records];
    let checked = reedsander::check_raw(sheet, text, &mut report);
    let set = reedsander::set_raw(sheet, text, &mut marks);
    let entries = entries(&report).take(checked as usize);
    holds(expected, entries, set, &marks).err()
}

/// Whether the sentences hold of the check's entries, the machine's answer
/// and its marks.
fn holds<'e>(
    expected: &Expected,
    entries: impl Iterator<Item = &'e [u32]> + Clone,
    answer: u64,
    marks: &[u32],
) -> Result<(), Broken> {
    let number = (answer >> 32) as usize;
    let is_named = |rule: &u32| STOP_RULES.iter().any(|rules| rules.contains(rule));
    let held = |held, broken| if held { Ok(()) } else { Err(broken) };
    let named = entries.clone().any(|entry| is_named(&entry[0]));
    held((number != 0) == named, Broken::Exactly)?;
    if number == 0 {
        let written = marks.iter().all(|&mark| mark != NO_MARK);
        let ended = answer == expected.records as u64;
        return held(ended && written && is_whole(expected), Broken::Once);
    }
    let rules = number.checked_sub(1).and_then(|at| STOP_RULES.get(at));
    let rules = rules.ok_or(Broken::Beside)?;
    // Where the plain machine stops elsewhere, the answers differ already.
    let block = expected.run.stop.as_ref().ok_or(Broken::Beside)?;
    let mut beside = entries.filter(|entry| rules.contains(&entry[0]));
    held(
        beside.any(|entry| entry[5..].starts_with(&block.path)),
        Broken::Beside,
    )
}

/// Whether the plain machine's run opens and closes every record once, and
/// opens it before it closes it.
fn is_whole(expected: &Expected) -> bool {
    let mut opened = vec![0; expected.records];
    let mut closed = vec![0; expected.records];
    for step in &expected.run.steps {
        match *step {
            Step::Open(record) => opened[record] += 1,
            Step::Close(record) => closed[record] += opened[record],
        }
    }
    let once = |counts: &[u32]| counts.iter().all(|&count| count == 1);
    once(&opened) && once(&closed)
}

#[cfg(test)]
mod tests {
    use super::*;
    use cases::plain;

    /// A quote with a heading of depth 0.
    fn stopping() -> Expected {
        Expected::of(&[plain(4, 1), plain(2, 2)].concat(), b"")
    }

    fn judged(expected: &Expected, list: &[u32], answer: u64, marks: &[u32]) -> Result<(), Broken> {
        let entries: Vec<&[u32]> = entries(list).collect();
        holds(expected, entries.into_iter(), answer, marks)
    }

    #[test]
    fn at_a_stop() {
        let expected = stopping();
        let answer = 6 << 32 | 1;
        let marks = [0, NO_MARK];
        let judged = |list: &[u32], answer| judged(&expected, list, answer, &marks);
        assert_eq!(expected.list, [10, 0, 0, 0, 2, 0, 0]);
        assert_eq!(judged(&expected.list, answer), Ok(()));
        // Another rule, no rule, another path, a shorter path, another stop.
        assert_eq!(judged(&[3, 0, 0, 0, 2, 0, 0], answer), Err(Broken::Exactly));
        assert_eq!(judged(&[], answer), Err(Broken::Exactly));
        assert_eq!(judged(&[10, 0, 0, 0, 2, 0, 1], answer), Err(Broken::Beside));
        assert_eq!(judged(&[10, 0, 0, 0, 1, 0], answer), Err(Broken::Beside));
        assert_eq!(judged(&[12, 0, 0, 0, 2, 0, 0], answer), Err(Broken::Beside));
        assert_eq!(judged(&expected.list, 7 << 32 | 1), Err(Broken::Beside));
        assert_eq!(judged(&expected.list, 15 << 32), Err(Broken::Beside));
        // It goes on over the rule.
        assert_eq!(judged(&expected.list, 2), Err(Broken::Exactly));
        // A longer path, behind another entry.
        let longer = [3, 0, 0, 0, 0, 10, 0, 0, 0, 3, 0, 0, 5];
        assert_eq!(judged(&longer, answer), Ok(()));
    }

    #[test]
    fn at_the_end() {
        let sheet = [plain(4, 1), plain(3, 2)].concat();
        let expected = Expected::of(&sheet, b"");
        let judged = |answer, marks: &[u32]| judged(&expected, &[], answer, marks);
        assert_eq!(judged(2, &[0, 0]), Ok(()));
        assert_eq!(judged(1, &[0, 0]), Err(Broken::Once));
        assert_eq!(judged(2, &[0, NO_MARK]), Err(Broken::Once));
        assert_eq!(judged(6 << 32, &[0, 0]), Err(Broken::Exactly));
        for steps in [
            vec![Step::Open(0), Step::Close(0)],
            vec![Step::Open(0), Step::Close(1), Step::Open(1), Step::Close(0)],
            [expected.run.steps.clone(), vec![Step::Open(1)]].concat(),
        ] {
            let mut other = expected.clone();
            other.run.steps = steps;
            assert!(is_whole(&expected) && !is_whole(&other));
        }
    }
}
