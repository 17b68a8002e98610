//! Runs over each sort of sheet.

use cases::{
    damage,
    exhaustive::{beginnings, nothing, Spelling},
    mend, names, random, templates, Numbers, Sheet,
};

use crate::{
    call::{compared, differ},
    counts::Counts,
    expected::{Call, Expected},
    limits::limits,
    shrink::{describe, shrunk},
};

/// How many differences are shrunk and printed.
const MOST_PRINTED: u64 = 5;

/// How often one tree is mended at most.
const MOST_MENDED: usize = 100;

/// How many tags a sheet of names has.
const NAMES: usize = 4096;

/// How much a run does.
#[derive(Clone, Copy, PartialEq, Eq, Debug)]
pub struct Plan {
    /// The first seed of the random sheets.
    pub seed: u64,
    /// Random trees, as many damaged ones, and at least as many random names.
    pub trees: u64,
    /// Whether the small sheets are over the wide set of records too, also
    /// behind what is refused; and whether the limits are there whose plain
    /// reading takes seconds.
    pub long: bool,
}

impl Plan {
    /// All of it.
    pub fn full(seed: u64) -> Self {
        Self {
            seed,
            trees: 600_000,
            long: true,
        }
    }

    /// About a minute.
    pub fn short(seed: u64) -> Self {
        Self {
            seed,
            trees: 150_000,
            long: false,
        }
    }
}

/// Compares, counts, and keeps what differs.
pub struct Harness {
    pub counts: Counts,
    pub differences: u64,
    numbers: Numbers,
    /// Prints a difference.
    print: Box<dyn FnMut(&str)>,
}

impl Harness {
    pub fn new(seed: u64, print: impl FnMut(&str) + 'static) -> Self {
        Self {
            counts: Counts::default(),
            differences: 0,
            numbers: Numbers::new(seed),
            print: Box::new(print),
        }
    }

    /// Compares one sheet with a report and marks that are long enough and
    /// ones that are not, and says whether longer sheets may be accepted.
    pub(crate) fn sheet(&mut self, name: &str, sheet: &[u32], text: &[u8]) -> bool {
        let expected = Expected::of(sheet, text);
        self.wanted(name, sheet, text, &expected);
        matches!(expected.refusal.0, 0 | 10)
    }

    /// Compares one sheet in the same way with what is wanted of it.
    pub(crate) fn wanted(&mut self, name: &str, sheet: &[u32], text: &[u8], expected: &Expected) {
        let calls = self.both(expected);
        self.calls(name, sheet, text, expected, &calls);
    }

    /// Calls of both functions.
    fn both(&mut self, expected: &Expected) -> Vec<Call> {
        [self.checks(expected), self.sets(expected)].concat()
    }

    /// The reports that a sheet is checked with.
    fn checks(&mut self, expected: &Expected) -> Vec<Call> {
        let full = expected.list.len();
        let long = full + self.numbers.one(&[0, 0, 1, 2, 7, 40]);
        let short = (full > 0).then(|| self.shorter(full));
        let lengths = [Some(long), short].into_iter().flatten();
        lengths.map(Call::Check).collect()
    }

    /// The marks that a sheet is set with: of one that is refused any.
    fn sets(&mut self, expected: &Expected) -> Vec<Call> {
        let full = expected.records;
        let long = full + self.numbers.one(&[0, 0, 0, 1, 3, 20]);
        let short = (full > 0).then(|| self.shorter(full));
        let lengths = match expected.is_accepted() {
            true => [Some(long), short],
            false if self.numbers.once_in(2) => [short, None],
            false => [Some(long), None],
        };
        lengths.into_iter().flatten().map(Call::Set).collect()
    }

    /// A length that is too short: by one, by any, or none.
    fn shorter(&mut self, full: usize) -> usize {
        match self.numbers.below(4) {
            0 | 1 => full - 1,
            2 => self.numbers.index(full),
            _ => 0,
        }
    }

    /// Compares each call, and tests demand 3.
    fn calls(
        &mut self,
        name: &str,
        sheet: &[u32],
        text: &[u8],
        expected: &Expected,
        calls: &[Call],
    ) {
        self.counts.sheet(expected);
        for &call in calls {
            let compared = compared(sheet, text, call, expected);
            self.counts
                .call(call, expected.answer(call).0, compared.found);
            if compared.difference.is_some() {
                self.differs(name, sheet, text, Some(call));
            }
        }
        if differ(sheet, text, None, expected).is_some() {
            self.differs(name, sheet, text, None);
        }
    }

    /// Counts a difference, and says whether it is printed.
    fn is_printed(&mut self) -> bool {
        self.differences += 1;
        self.differences <= MOST_PRINTED
    }

    /// Keeps a difference that is not one of a call.
    pub(crate) fn differs_otherwise(&mut self, name: &str, what: &str) {
        if self.is_printed() {
            (self.print)(&format!("DIFFERENCE in {name}: {what}"));
        }
    }

    fn differs(&mut self, name: &str, sheet: &[u32], text: &[u8], call: Option<Call>) {
        if !self.is_printed() {
            return;
        }
        let shown = match shrunk(sheet, text, call) {
            Some(found) => describe(&found.sheet, &found.text, found.call),
            None => describe(sheet, text, call),
        };
        (self.print)(&format!("DIFFERENCE in {name}, shrunk\n{shown}"));
    }

    /// Every sheet of up to three records over a set, and of up to two behind
    /// each beginning.
    pub fn small(&mut self, plan: Plan) {
        let sets = [templates::narrow(), templates::wide()];
        let sets = if plan.long { &sets[..] } else { &sets[..1] };
        self.sheet("no records", &[], &[]);
        for letters in sets {
            let mut spelling = Spelling::new(letters);
            let mut see = |sheet: &[u32], text: &[u8]| self.sheet("small sheets", sheet, text);
            spelling.sheets(&nothing(), 3, &mut see);
            for beginning in beginnings() {
                spelling.sheets(&beginning, 2, &mut see);
            }
        }
    }

    /// Every sheet of up to three records over the wide set, also those that
    /// begin with a sheet that is refused.
    pub fn all_small(&mut self, plan: Plan) {
        if !plan.long {
            return;
        }
        let mut see = |sheet: &[u32], text: &[u8]| {
            self.sheet("all small sheets", sheet, text);
            true
        };
        Spelling::new(&templates::wide()).sheets(&nothing(), 3, &mut see);
    }

    /// Each character as the name of a tag, alone and behind `a`; and at least
    /// as many random names as trees.
    pub fn names(&mut self, plan: Plan) {
        let all: Vec<char> = ('\0'..=char::MAX).collect();
        for front in ["", "a"] {
            for characters in all.chunks(NAMES) {
                let named = |character| format!("{front}{character}");
                let names: Vec<String> = characters.iter().map(named).collect();
                let (sheet, text) = names::tags(&names);
                let name = format!("names from {:?}", names[0]);
                self.sheet(&name, &sheet, &text);
            }
        }
        for seed in (plan.seed..plan.seed + plan.trees).step_by(NAMES) {
            let mut numbers = Numbers::new(seed);
            let names: Vec<String> = (0..NAMES).map(|_| names::tag_name(&mut numbers)).collect();
            let (sheet, text) = names::tags(&names);
            self.sheet(&format!("random names {seed}"), &sheet, &text);
        }
    }

    /// Random trees, one in four of them deep.
    pub fn trees(&mut self, plan: Plan) {
        for seed in plan.seed..plan.seed + plan.trees {
            let (sheet, text) = tree(seed);
            self.sheet(&format!("random tree {seed}"), &sheet, &text);
        }
    }

    /// Random trees with something done to them.
    pub fn damaged(&mut self, plan: Plan) {
        for seed in plan.seed..plan.seed + plan.trees {
            let mut numbers = Numbers::new(!seed);
            let (sheet, text) = damage::damaged(&mut numbers, tree(seed));
            self.sheet(&format!("damaged tree {seed}"), &sheet, &text);
        }
    }

    /// Random trees with each stop of the machine mended in turn, until it
    /// comes to the end: without this it stops near the beginning of most.
    pub fn mended(&mut self, plan: Plan) {
        for seed in plan.seed..plan.seed + plan.trees / 5 {
            let mut numbers = Numbers::new(!seed);
            let mut sheet = tree(seed);
            for turn in 0..MOST_MENDED {
                let (words, text) = &sheet;
                let expected = Expected::of(words, text);
                let calls = self.both(&expected);
                let name = format!("tree {seed}, mended {turn} times");
                self.calls(&name, words, text, &expected, &calls);
                let Some(stop) = &expected.run.stop else {
                    break;
                };
                sheet = mend::mended(&mut numbers, sheet, stop.number, stop.record);
            }
        }
    }

    /// Every limit, each with a report and with marks exactly full, longer,
    /// one word short and empty.
    pub fn limits(&mut self, plan: Plan) {
        for limit in limits(plan.long) {
            let (sheet, text) = (&limit.sheet, &limit.text);
            let expected = Expected::of(sheet, text);
            let mut lengths = |full: usize| {
                let short = [full.wrapping_sub(1), 0, self.numbers.index(full.max(1))];
                let short = short.into_iter().filter(move |&length| length < full);
                [full, full + 1, full + 100].into_iter().chain(short)
            };
            let calls: Vec<Call> = lengths(expected.list.len())
                .map(Call::Check)
                .chain(lengths(expected.records).map(Call::Set))
                .collect();
            self.calls(&limit.name, sheet, text, &expected, &calls);
        }
    }

    /// Every length of the report and of the marks, from empty to one word
    /// more than needed.
    pub fn lengths(&mut self, plan: Plan) {
        for seed in plan.seed..plan.seed + plan.trees / 100 {
            let (sheet, text) = tree(seed);
            let expected = Expected::of(&sheet, &text);
            let calls: Vec<Call> = (0..=expected.list.len() + 1)
                .map(Call::Check)
                .chain((0..=expected.records + 1).map(Call::Set))
                .collect();
            let name = format!("lengths of tree {seed}");
            self.calls(&name, &sheet, &text, &expected, &calls);
        }
    }
}

/// The random tree of a seed.
fn tree(seed: u64) -> Sheet {
    let records = 3 + (seed % 29) as usize;
    match seed % 4 {
        0 => random::deep(seed, records),
        _ => random::tree(seed, records),
    }
}

#[cfg(test)]
mod tests {
    use super::*;
    use std::{cell::Cell, rc::Rc};

    /// A small run finds no difference and sees nearly everything; the rest
    /// of the refusals stands at the limits.
    #[test]
    fn small_run() {
        let printed = Rc::new(Cell::new(0));
        let seen = printed.clone();
        let mut harness = Harness::new(0, move |shown| {
            eprintln!("{shown}");
            seen.set(seen.get() + 1);
        });
        let plan = Plan {
            trees: 5000,
            ..Plan::short(0)
        };
        harness.trees(plan);
        harness.damaged(plan);
        harness.mended(plan);
        harness.lengths(plan);
        assert_eq!((harness.differences, printed.get()), (0, 0));
        let unseen = ["check refusal 2", "check refusal 3"]
            .into_iter()
            .chain(["set refusal 2", "set refusal 3"]);
        assert!(harness.counts.unseen().iter().eq(unseen));
        assert!(harness.counts.sheets > 12_000, "{}", harness.counts.sheets);
    }

    /// What is mended stays accepted, and comes to the end.
    #[test]
    fn mended_to_the_end() {
        let mut harness = Harness::new(0, |_| {});
        let plan = Plan {
            trees: 1000,
            ..Plan::short(0)
        };
        harness.mended(plan);
        let counts = harness.counts;
        assert_eq!((counts.sheets, counts.ended), (counts.accepted, 200));
        assert!(counts.sheets > 400, "{}", counts.sheets);
    }
}
