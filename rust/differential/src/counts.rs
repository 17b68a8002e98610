//! What was seen in a run.

use std::fmt;

use oracle::REFUSED;

use crate::expected::{Call, Expected};

/// The numbers of rules, of stops, and of the refusals of each function.
const RULES: u32 = 56;
const STOPS: u32 = 14;
const CHECK_REFUSALS: [u32; 11] = [1, 2, 3, 4, 5, 6, 7, 8, 9, 10, 11];
const SET_REFUSALS: [u32; 11] = [1, 2, 3, 4, 5, 6, 7, 8, 9, 10, 12];

/// How often each number was answered, by the oracle and by the library.
#[derive(Clone, PartialEq, Eq, Debug)]
struct Answers(Vec<[u64; 2]>);

impl Answers {
    /// None yet, of numbers up to `most`.
    fn none(most: u32) -> Self {
        Self(vec![[0; 2]; most as usize + 1])
    }

    /// Counts an answer of each side; one that is no number of an answer is
    /// a difference, and counts nowhere.
    fn count(&mut self, numbers: [u32; 2]) {
        for (side, number) in numbers.into_iter().enumerate() {
            if let Some(counts) = self.0.get_mut(number as usize) {
                counts[side] += 1;
            }
        }
    }

    fn of(&self, number: u32) -> [u64; 2] {
        self.0[number as usize]
    }

    /// How many answers the oracle gave.
    fn calls(&self) -> u64 {
        self.0.iter().map(|counts| counts[0]).sum()
    }
}

/// Sheets and calls, by their answers.
#[derive(Clone, PartialEq, Eq, Debug)]
pub struct Counts {
    /// Sheets that were compared, each in one call or more.
    pub sheets: u64,
    /// Sheets that are accepted, with a report that is long enough.
    pub accepted: u64,
    /// Accepted sheets without an entry, and those that the machine sets to
    /// their end.
    pub clean: u64,
    pub ended: u64,
    /// Entries of each rule, once for each sheet; nothing at 0.
    rules: [u64; RULES as usize + 1],
    checks: Answers,
    sets: Answers,
}

impl Default for Counts {
    fn default() -> Self {
        Self {
            sheets: 0,
            accepted: 0,
            clean: 0,
            ended: 0,
            rules: [0; RULES as usize + 1],
            checks: Answers::none(11),
            sets: Answers::none(REFUSED + 12),
        }
    }
}

impl Counts {
    pub fn sheet(&mut self, expected: &Expected) {
        self.sheets += 1;
        for entry in expected.entries() {
            self.rules[entry[0] as usize] += 1;
        }
        if expected.is_accepted() {
            self.accepted += 1;
            self.clean += u64::from(expected.list.is_empty());
            self.ended += u64::from(expected.run.stop.is_none());
        }
    }

    /// Counts the number that a call is wanted to answer, and what it did.
    pub fn call(&mut self, call: Call, wanted: u32, found: u64) {
        let numbers = [wanted, (found >> 32) as u32];
        match call {
            Call::Check(_) => self.checks.count(numbers),
            Call::Set(_) => self.sets.count(numbers),
        }
    }

    pub fn calls(&self) -> u64 {
        self.checks.calls() + self.sets.calls()
    }

    /// The rules that have entries, and how many.
    pub fn rules(&self) -> impl Iterator<Item = (u32, u64)> + '_ {
        let rules = (1..=RULES).map(|rule| (rule, self.rules[rule as usize]));
        rules.filter(|&(_, entries)| entries > 0)
    }

    /// Each number by name, with how often the oracle and the library gave
    /// it. The entries of the rules are counted once, since every word of a
    /// report is compared.
    fn seen(&self) -> impl Iterator<Item = (&'static str, u32, [u64; 2])> + '_ {
        let checked = move |number| ("check refusal", number, self.checks.of(number));
        let stopped = move |number| ("stop", number, self.sets.of(number));
        let refused = move |number| ("set refusal", number, self.sets.of(REFUSED + number));
        let ruled = move |rule: u32| ("rule", rule, [self.rules[rule as usize]; 2]);
        let checked = CHECK_REFUSALS.into_iter().map(checked);
        let set = (1..=STOPS)
            .map(stopped)
            .chain(SET_REFUSALS.into_iter().map(refused));
        checked.chain(set).chain((1..=RULES).map(ruled))
    }

    /// The rules, stops and refusals that were never seen, on either side.
    pub fn unseen(&self) -> Vec<String> {
        self.seen()
            .filter(|(_, _, counts)| counts.contains(&0))
            .map(|(what, number, _)| format!("{what} {number}"))
            .collect()
    }
}

impl fmt::Display for Counts {
    fn fmt(&self, formatter: &mut fmt::Formatter<'_>) -> fmt::Result {
        let (sheets, accepted) = (self.sheets, self.accepted);
        writeln!(
            formatter,
            "sheets {sheets}: accepted {accepted} ({} without an entry; {} set to the end, {} stopped), refused {}",
            self.clean,
            self.ended,
            accepted - self.ended,
            sheets - accepted
        )?;
        for (what, answers) in [("check", &self.checks), ("set", &self.sets)] {
            let [wanted, found] = answers.of(0);
            let calls = answers.calls();
            writeln!(
                formatter,
                "{what}: {calls} calls, 0 wanted {wanted}, found {found}"
            )?;
        }
        writeln!(formatter, "each number, how often wanted and found:")?;
        let mut shown = String::new();
        let mut before = "";
        for (what, number, counts) in self.seen() {
            if what != before && !shown.is_empty() || shown.len() > 100 {
                writeln!(formatter, "{shown}")?;
                shown.clear();
            }
            let [wanted, found] = counts;
            shown += &match what {
                "rule" => format!("{what:>14} {number:>2} {wanted:>9}"),
                _ => format!("{what:>14} {number:>2} {wanted:>9} {found:>9}"),
            };
            before = what;
        }
        writeln!(formatter, "{shown}")
    }
}

#[cfg(test)]
mod tests {
    use super::*;

    /// What only one side gave is not seen.
    #[test]
    fn both_sides() {
        let mut counts = Counts::default();
        let all = counts.unseen().len();
        assert_eq!(all, 11 + 14 + 11 + 56);
        counts.call(Call::Set(0), 268, 0);
        assert_eq!(counts.unseen().len(), all);
        counts.call(Call::Set(0), 268, 268 << 32);
        assert_eq!(counts.unseen().len(), all - 1);
        counts.call(Call::Set(0), 14, 14 << 32 | 9);
        counts.call(Call::Check(0), 11, 11 << 32);
        counts.call(Call::Check(0), 1, u64::MAX);
        assert_eq!(counts.unseen().len(), all - 3);
        assert!(counts.unseen().contains(&"check refusal 1".to_string()));
        assert_eq!(counts.calls(), 5);
        let shown = counts.to_string();
        assert!(shown.contains("set refusal 12         2         1\n"));
    }
}
