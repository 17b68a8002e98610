//! What document 01 wants of a call, read from document 01: the refusals 1 to
//! 10, the list and the machine's run are the oracle's, the refusal 11 and
//! what must stay are here.

use cases::RECORD_WORDS;
use oracle::{Run, REFUSED};

/// What is called.
#[derive(Clone, Copy, PartialEq, Eq, Debug)]
pub enum Call {
    /// `reedsander_check`, with a report of so many words.
    Check(usize),
    /// `reedsander_set`, with so many marks.
    Set(usize),
}

/// What is wanted of calls with one sheet and text.
#[derive(Clone, PartialEq, Eq, Debug)]
pub struct Expected {
    /// How many records the sheet has.
    pub records: usize,
    /// Number and record of a refusal 1 to 10; 0 and 0 where there is none.
    pub refusal: (u32, usize),
    /// The list; nothing where the sheet is refused.
    pub list: Vec<u32>,
    /// The machine's run; nothing where the sheet is refused.
    pub run: Run,
}

impl Expected {
    pub fn of(sheet: &[u32], text: &[u8]) -> Self {
        let refusal = oracle::refusal(sheet, text);
        let (list, run) = match refusal.0 {
            0 => (oracle::list(sheet, text), Run::of(sheet, text)),
            _ => Default::default(),
        };
        Self {
            records: sheet.len() / RECORD_WORDS,
            refusal,
            list,
            run,
        }
    }

    /// Whether the sheet is accepted, with a report or marks that are long
    /// enough.
    pub fn is_accepted(&self) -> bool {
        self.refusal.0 == 0
    }

    /// The answer's number, and its record or count: "11 short report: list
    /// needs more words", and only where nothing else refuses; "A refusal
    /// returns number and record (from 0; 0 for 1–3 and for 11 and above)";
    /// "An accepted check answers 0 and the number of entries." The machine's
    /// refusals have [`REFUSED`] added.
    pub fn answer(&self, call: Call) -> (u32, usize) {
        let (number, record) = self.refusal;
        match call {
            Call::Check(_) if number != 0 => (number, record),
            Call::Set(_) if number != 0 => (REFUSED + number, record),
            Call::Check(words) if words < self.list.len() => (11, 0),
            Call::Check(_) => (0, self.entries().count()),
            Call::Set(marks) => self.run.answer(self.records, marks),
        }
    }

    /// The words at the front of the report or of the marks behind a call;
    /// all others stay. "A refusal [...] changes no lent word. Otherwise words
    /// past the list stay." "Each record opened without a stop gets a mark
    /// [...] Other marks stay."
    pub fn written(&self, call: Call) -> &[u32] {
        match (call, self.answer(call).0) {
            (Call::Check(_), 0) => &self.list,
            (Call::Set(_), 0..REFUSED) => &self.run.marks,
            _ => &[],
        }
    }

    /// The entries of the list.
    pub fn entries(&self) -> impl Iterator<Item = &[u32]> {
        entries(&self.list)
    }
}

/// "Report entry: rule, span flag, start, end, path length, path."
pub fn entries(list: &[u32]) -> impl Iterator<Item = &[u32]> + Clone {
    let mut rest = list;
    std::iter::from_fn(move || {
        let length = 5 + *rest.get(4)? as usize;
        let (entry, after) = rest.split_at_checked(length)?;
        rest = after;
        Some(entry)
    })
}

#[cfg(test)]
mod tests {
    use super::*;
    use oracle::Stop;

    fn accepted(stop: Option<Stop>, marks: Vec<u32>) -> Expected {
        Expected {
            records: 3,
            refusal: (0, 0),
            list: vec![10, 0, 0, 0, 1, 0, 19, 1, 2, 3, 2, 4, 5],
            run: Run {
                steps: vec![],
                marks,
                stop,
            },
        }
    }

    #[test]
    fn checks() {
        let expected = accepted(None, vec![]);
        assert_eq!(expected.answer(Call::Check(13)), (0, 2));
        assert_eq!(expected.answer(Call::Check(14)), (0, 2));
        assert_eq!(expected.answer(Call::Check(12)), (11, 0));
        assert_eq!(expected.written(Call::Check(13)), expected.list);
        assert_eq!(expected.written(Call::Check(12)), []);
    }

    #[test]
    fn sets() {
        let ended = accepted(None, vec![4, 5, 6]);
        assert_eq!(ended.answer(Call::Set(3)), (0, 3));
        assert_eq!(ended.answer(Call::Set(4)), (0, 3));
        assert_eq!(ended.answer(Call::Set(2)), (268, 0));
        assert_eq!(ended.written(Call::Set(3)), [4, 5, 6]);
        assert_eq!(ended.written(Call::Set(2)), []);
        let stop = Stop {
            number: 14,
            record: 2,
            path: vec![0],
        };
        let stopped = accepted(Some(stop), vec![4, 5]);
        assert_eq!(stopped.answer(Call::Set(9)), (14, 2));
        assert_eq!(stopped.answer(Call::Set(0)), (268, 0));
        assert_eq!(stopped.written(Call::Set(3)), [4, 5]);
    }

    #[test]
    fn refused() {
        let refused = Expected {
            refusal: (6, 3),
            list: vec![],
            ..accepted(None, vec![])
        };
        assert_eq!(refused.answer(Call::Check(0)), (6, 3));
        assert_eq!(refused.answer(Call::Set(0)), (262, 3));
        assert_eq!(refused.written(Call::Check(9)), []);
        assert_eq!(refused.written(Call::Set(9)), []);
    }
}
