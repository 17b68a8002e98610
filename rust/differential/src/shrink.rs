//! A sheet that differs, made as small as it goes, and its listing.

use cases::RECORD_WORDS;
use reedsander::Rule;

use crate::{
    call::{differ, Difference},
    expected::{entries, Call, Expected},
};

/// How often a smaller sheet is tried at most.
const MOST_TRIALS: usize = 200_000;

/// What differs: a call, or without one what demand 3 says of both functions.
#[derive(Clone, PartialEq, Eq, Debug)]
pub struct Found {
    pub sheet: Vec<u32>,
    pub text: Vec<u8>,
    pub call: Option<Call>,
    difference: Difference,
}

/// The call of this sheet that differs: of the same function, with the length
/// as it was, or exactly full, longer, one short, or empty.
fn found(sheet: Vec<u32>, text: Vec<u8>, call: Option<Call>) -> Option<Found> {
    let expected = Expected::of(&sheet, &text);
    let lengths = |full: usize| [full + 3, full, full.saturating_sub(1), 0];
    let calls: Vec<Option<Call>> = match call {
        Some(Call::Check(_)) => lengths(expected.list.len())
            .map(|words| Some(Call::Check(words)))
            .into(),
        Some(Call::Set(_)) => lengths(expected.records)
            .map(|marks| Some(Call::Set(marks)))
            .into(),
        None => vec![],
    };
    calls.into_iter().chain([call]).find_map(|call| {
        let difference = differ(&sheet, &text, call, &expected)?;
        Some(Found {
            sheet: sheet.clone(),
            text: text.clone(),
            call,
            difference,
        })
    })
}

struct Shrinker {
    best: Found,
    trials: usize,
}

impl Shrinker {
    /// Takes the smaller sheet where it differs too, and says whether.
    fn takes(&mut self, sheet: Vec<u32>, text: Vec<u8>) -> bool {
        if self.trials == MOST_TRIALS || (&sheet, &text) == (&self.best.sheet, &self.best.text) {
            return false;
        }
        self.trials += 1;
        let smaller = found(sheet, text, self.best.call);
        smaller.map(|smaller| self.best = smaller).is_some()
    }

    fn takes_sheet(&mut self, sheet: Vec<u32>) -> bool {
        self.takes(sheet, self.best.text.clone())
    }

    fn records(&self) -> usize {
        self.best.sheet.len() / RECORD_WORDS
    }

    /// Drops runs of records, long ones first.
    fn drop_records(&mut self) -> bool {
        let mut any = false;
        let mut length = self.records().max(1);
        while length > 0 {
            let mut at = 0;
            while at + length <= self.records() {
                let mut sheet = self.best.sheet.clone();
                sheet.drain(at * RECORD_WORDS..(at + length) * RECORD_WORDS);
                if self.takes_sheet(sheet) {
                    any = true;
                } else {
                    at += 1;
                }
            }
            length /= 2;
        }
        any
    }

    /// Takes what one record is and holds for the whole sheet.
    fn hoist(&mut self) -> bool {
        let mut any = false;
        for at in (0..self.records()).rev() {
            let Some(level) = self.level(at).filter(|&level| level > 1) else {
                continue;
            };
            let below = |record: &&[u32]| record.get(1).is_some_and(|&below| below > level);
            let mut records = self.best.sheet.chunks(RECORD_WORDS).skip(at);
            let first = records.next().into_iter();
            let mut sheet: Vec<u32> = first
                .chain(records.take_while(below))
                .flatten()
                .copied()
                .collect();
            for record in sheet.chunks_mut(RECORD_WORDS) {
                record[1] -= level - 1;
            }
            any |= self.takes_sheet(sheet);
        }
        any
    }

    /// Drops a few records and lifts what stands under the first of them: a
    /// quote, a list with its item, a container with its tags.
    fn lift_children(&mut self) -> bool {
        let mut any = false;
        for (dropped, lifted) in [(1, 1), (2, 2), (3, 1)] {
            for at in (0..self.records()).rev() {
                let Some(level) = self.level(at) else {
                    continue;
                };
                let mut sheet = self.best.sheet.clone();
                let end = sheet.len().min((at + dropped) * RECORD_WORDS);
                for record in sheet[end..].chunks_mut(RECORD_WORDS) {
                    if record.len() < 2 || record[1] < level.saturating_add(lifted) {
                        break;
                    }
                    record[1] -= lifted;
                }
                sheet.drain(at * RECORD_WORDS..end);
                any |= self.takes_sheet(sheet);
            }
        }
        any
    }

    /// The level of a record that is still there.
    fn level(&self, record: usize) -> Option<u32> {
        self.best.sheet.get(record * RECORD_WORDS + 1).copied()
    }

    /// Shortens each part that a record names, at its end and at its start.
    fn shorten_parts(&mut self) -> bool {
        let mut any = false;
        for record in 0..self.records() {
            for field in [8, 10] {
                let at = record * RECORD_WORDS + field;
                while let Some(&[start, length]) = self.best.sheet.get(at..at + 2) {
                    let shorter = [
                        [0, 0],
                        [start, length / 2],
                        [
                            start + (length - length / 2).min(u32::MAX - start),
                            length / 2,
                        ],
                        [start, length.saturating_sub(1)],
                        [start.saturating_add(1), length.saturating_sub(1)],
                    ];
                    let taken = shorter.into_iter().any(|part| {
                        let mut sheet = self.best.sheet.clone();
                        sheet[at..at + 2].copy_from_slice(&part);
                        part[1] < length && self.takes_sheet(sheet)
                    });
                    any |= taken;
                    if !taken {
                        break;
                    }
                }
            }
        }
        any
    }

    /// Makes words 0, or 1, or half.
    fn lower_words(&mut self) -> bool {
        let mut any = false;
        for at in 0..self.best.sheet.len() {
            let word = self.best.sheet[at];
            any |= [0, 1, word / 2, word.saturating_sub(1)]
                .into_iter()
                .filter(|&lower| lower < word)
                .any(|lower| {
                    let mut sheet = self.best.sheet.clone();
                    sheet[at] = lower;
                    self.takes_sheet(sheet)
                });
        }
        any
    }

    /// Drops bytes of the text, with the starts behind them moved.
    fn drop_bytes(&mut self) -> bool {
        let mut any = false;
        let mut length = self.best.text.len();
        while length > 0 {
            let mut at = 0;
            while at + length <= self.best.text.len() {
                let mut text = self.best.text.clone();
                text.drain(at..at + length);
                let mut sheet = self.best.sheet.clone();
                for record in sheet.chunks_mut(RECORD_WORDS) {
                    for field in [8, 10] {
                        match record.get_mut(field) {
                            Some(start) if *start as usize >= at + length => {
                                *start -= length as u32;
                            }
                            _ => {}
                        }
                    }
                }
                let taken =
                    self.takes(sheet, text.clone()) || self.takes(self.best.sheet.clone(), text);
                if taken {
                    any = true;
                } else {
                    at += length;
                }
            }
            length /= 2;
        }
        any
    }

    /// Cuts words that make no record.
    fn cut_words(&mut self) -> bool {
        let whole = self.records() * RECORD_WORDS;
        let cut = self.best.sheet[..whole].to_vec();
        self.takes_sheet(cut)
    }

    fn all(&mut self) {
        loop {
            let mut any = self.drop_records();
            any |= self.cut_words();
            any |= self.hoist();
            any |= self.lift_children();
            any |= self.shorten_parts();
            any |= self.drop_bytes();
            any |= self.lower_words();
            if !any {
                return;
            }
        }
    }
}

/// What differs, with as small a sheet and text as can be; None where this
/// does not differ.
pub fn shrunk(sheet: &[u32], text: &[u8], call: Option<Call>) -> Option<Found> {
    let best = found(sheet.to_vec(), text.to_vec(), call)?;
    let mut shrinker = Shrinker { best, trials: 0 };
    shrinker.all();
    Some(shrinker.best)
}

/// The listing of a call, and what is wanted and found of both functions.
pub fn describe(sheet: &[u32], text: &[u8], call: Option<Call>) -> String {
    let expected = Expected::of(sheet, text);
    let mut lines = match differ(sheet, text, call, &expected) {
        Some(difference) => format!("difference: {difference}\n"),
        None => "no difference\n".into(),
    };
    lines += &match call {
        Some(Call::Check(words)) => format!("check, report words: {words}\n"),
        Some(Call::Set(marks)) => format!("set, marks: {marks}\n"),
        None => "check and set\n".into(),
    };
    lines += &String::from_utf8_lossy(&reedsander::film(sheet, b""));
    lines += &format!("text: \"{}\"\n", text.escape_ascii());
    if !matches!(call, Some(Call::Set(_))) {
        lines += &described_check(sheet, text, call, &expected);
    }
    if !matches!(call, Some(Call::Check(_))) {
        lines += &described_set(sheet, text, call, &expected);
    }
    lines
}

/// The check's list as it is wanted, and as it is found.
fn described_check(sheet: &[u32], text: &[u8], call: Option<Call>, expected: &Expected) -> String {
    let long = Call::Check(expected.list.len() + 4096);
    let (number, low) = expected.answer(call.unwrap_or(long));
    let mut lines = format!("wanted: {number} {low}\n");
    lines += &shown(&expected.list);
    let mut report = vec![0; expected.list.len() + 4096];
    let answer = long.made(sheet, text, &mut report);
    let (number, low) = (answer >> 32, answer as u32);
    lines += &format!("found with a long report: {number} {low}\n");
    if number == 0 {
        let listed = entries(&report).take(low as usize);
        let words: usize = listed.map(<[u32]>::len).sum();
        lines += &shown(&report[..words]);
    }
    lines
}

/// The machine's run as it is wanted, and its answer and marks as they are
/// found; a mark that was not written is 4294967295.
fn described_set(sheet: &[u32], text: &[u8], call: Option<Call>, expected: &Expected) -> String {
    let enough = Call::Set(expected.records);
    let (number, low) = expected.answer(call.unwrap_or(enough));
    let mut lines = format!("wanted of the machine: {number} {low}\n");
    if let Some(stop) = &expected.run.stop {
        lines += &format!("  in the block {:?}\n", stop.path);
    }
    lines += &format!("  marks {:?}\n", expected.run.marks);
    let mut marks = vec![u32::MAX; expected.records];
    let answer = enough.made(sheet, text, &mut marks);
    let (number, low) = (answer >> 32, answer as u32);
    lines += &format!("found of the machine with marks enough: {number} {low}\n");
    lines += &format!("  marks {marks:?}\n");
    lines
}

/// A line an entry.
fn shown(list: &[u32]) -> String {
    entries(list)
        .map(|entry| {
            let name = Rule::from_raw(entry[0]).map_or("no rule", Rule::name);
            format!("  {entry:?} {name}\n")
        })
        .collect()
}

#[cfg(test)]
mod tests {
    use super::*;

    #[test]
    fn nothing_to_shrink() {
        let heading = cases::plain(2, 1);
        for call in [Some(Call::Check(6)), Some(Call::Set(1)), None] {
            assert_eq!(shrunk(&[], b"", call), None);
            assert_eq!(shrunk(&heading, b"", call), None);
        }
    }

    #[test]
    fn descriptions() {
        let heading = cases::plain(2, 1);
        let of_check = describe(&heading, b"\n", Some(Call::Check(6)));
        assert!(of_check.starts_with("no difference\ncheck, report words: 6\n"));
        assert!(of_check.contains("wanted: 0 1\n  [10, 0, 0, 0, 1, 0] heading depth\n"));
        assert!(of_check.contains("text: \"\\n\"\n"));
        let of_set = describe(&heading, b"", Some(Call::Set(0)));
        assert!(of_set.starts_with("no difference\nset, marks: 0\n"));
        assert!(of_set.contains("wanted of the machine: 268 0\n  in the block [0]\n  marks []\n"));
        assert!(of_set.ends_with("marks enough: 6 0\n  marks [4294967295]\n"));
        let of_both = describe(&heading, b"", None);
        assert!(of_both.contains("wanted: 0 1\n"));
        assert!(of_both.contains("wanted of the machine: 6 0\n"));
    }
}
