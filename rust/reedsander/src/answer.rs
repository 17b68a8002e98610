//! The checker's answers, and the refusals.

use std::{error::Error, fmt};

/// What the checker answers.
#[derive(Clone, Copy, PartialEq, Eq, Hash, Debug)]
#[must_use]
#[non_exhaustive]
pub enum Answer {
    /// The list stands in the report.
    Accepted {
        /// How many entries it has.
        entries: u32,
    },
    /// Nothing was changed.
    Refused(Refusal),
}

/// Why a sheet is refused. Records are counted from 0.
#[derive(Clone, Copy, PartialEq, Eq, Hash, Debug)]
#[non_exhaustive]
pub enum Refusal {
    /// 1: the words are not a multiple of 12.
    OddSheet,
    /// 2: over 65,535 records.
    LongSheet,
    /// 3: over 16,777,216 bytes of text.
    LongText,
    /// 4: the record's kind is not listed.
    UnknownKind {
        /// The record.
        record: u32,
    },
    /// 5: the record's level is 0, over 64, not 1 for the first record, or
    /// over the level before plus 1.
    BadLevel {
        /// The record.
        record: u32,
    },
    /// 6: the record is not allowed under its parent, or is out of order
    /// there.
    Misplaced {
        /// The record.
        record: u32,
    },
    /// 7: a value of the record is out of range, or a word that it does not
    /// use is not 0.
    BadField {
        /// The record.
        record: u32,
    },
    /// 8: a text of the record starts or ends past the text.
    TextOutside {
        /// The record.
        record: u32,
    },
    /// 9: a text of the record is not UTF-8.
    NotUtf8 {
        /// The record.
        record: u32,
    },
    /// 10: the record is an HTML container with fewer than two tags.
    TagsMissing {
        /// The record.
        record: u32,
    },
    /// 11, of a check alone: the list needs more words than the report has.
    ShortReport,
    /// 12, of the setting machine alone: there are fewer marks than records.
    ShortMarks,
    /// An answer that this crate does not know: the library is newer.
    Unknown {
        /// The answer's upper half; 0 where the list's entries are not of the
        /// form that this crate reads.
        number: u32,
        /// The answer's lower half.
        record: u32,
    },
}

impl Answer {
    /// The answer that the C function's number is: its upper 32 bits are 0
    /// and the lower ones the number of entries, or the upper ones are the
    /// refusal's number and the lower ones its record. None for a number that
    /// is no answer.
    #[must_use]
    pub fn from_raw(answer: u64) -> Option<Self> {
        let (number, low) = halves(answer);
        if number == 0 {
            return Some(Self::Accepted { entries: low });
        }
        Refusal::from_raw(number, low)
            .filter(|refusal| *refusal != Refusal::ShortMarks)
            .map(Self::Refused)
    }
}

impl From<Answer> for u64 {
    /// The C function's number for the answer.
    fn from(answer: Answer) -> Self {
        match answer {
            Answer::Accepted { entries } => whole(0, entries),
            Answer::Refused(refusal) => whole(refusal.number(), refusal.record().unwrap_or(0)),
        }
    }
}

/// The upper and the lower half of a C function's answer.
pub(crate) const fn halves(answer: u64) -> (u32, u32) {
    ((answer >> 32) as u32, answer as u32)
}

/// The answer of two halves.
pub(crate) fn whole(number: u32, low: u32) -> u64 {
    u64::from(number) << 32 | u64::from(low)
}

impl Refusal {
    /// The refusal of a number and a record, which is 0 for 1, 2, 3, 11
    /// and 12. None for a number that is no refusal.
    #[must_use]
    pub const fn from_raw(number: u32, record: u32) -> Option<Self> {
        Some(match (number, record) {
            (1, 0) => Self::OddSheet,
            (2, 0) => Self::LongSheet,
            (3, 0) => Self::LongText,
            (4, _) => Self::UnknownKind { record },
            (5, _) => Self::BadLevel { record },
            (6, _) => Self::Misplaced { record },
            (7, _) => Self::BadField { record },
            (8, _) => Self::TextOutside { record },
            (9, _) => Self::NotUtf8 { record },
            (10, _) => Self::TagsMissing { record },
            (11, 0) => Self::ShortReport,
            (12, 0) => Self::ShortMarks,
            _ => return None,
        })
    }

    /// The refusal for an answer that is none of those that are known.
    pub(crate) const fn unknown(answer: u64) -> Self {
        let (number, record) = halves(answer);
        Self::Unknown { number, record }
    }

    /// Its number: 1 to 12, or of an answer that is not known the upper half.
    #[must_use]
    pub const fn number(self) -> u32 {
        match self {
            Self::OddSheet => 1,
            Self::LongSheet => 2,
            Self::LongText => 3,
            Self::UnknownKind { .. } => 4,
            Self::BadLevel { .. } => 5,
            Self::Misplaced { .. } => 6,
            Self::BadField { .. } => 7,
            Self::TextOutside { .. } => 8,
            Self::NotUtf8 { .. } => 9,
            Self::TagsMissing { .. } => 10,
            Self::ShortReport => 11,
            Self::ShortMarks => 12,
            Self::Unknown { number, .. } => number,
        }
    }

    /// The record that it is about, where it is about one.
    #[must_use]
    pub const fn record(self) -> Option<u32> {
        match self {
            Self::OddSheet
            | Self::LongSheet
            | Self::LongText
            | Self::ShortReport
            | Self::ShortMarks => None,
            Self::UnknownKind { record }
            | Self::BadLevel { record }
            | Self::Misplaced { record }
            | Self::BadField { record }
            | Self::TextOutside { record }
            | Self::NotUtf8 { record }
            | Self::TagsMissing { record }
            | Self::Unknown { record, .. } => Some(record),
        }
    }

    /// The trade's word for it.
    #[must_use]
    pub const fn name(self) -> &'static str {
        match self {
            Self::OddSheet => "odd sheet",
            Self::LongSheet => "long sheet",
            Self::LongText => "long text",
            Self::UnknownKind { .. } => "unknown kind",
            Self::BadLevel { .. } => "bad level",
            Self::Misplaced { .. } => "misplaced",
            Self::BadField { .. } => "bad field",
            Self::TextOutside { .. } => "text outside",
            Self::NotUtf8 { .. } => "not UTF-8",
            Self::TagsMissing { .. } => "tags missing",
            Self::ShortReport => "short report",
            Self::ShortMarks => "short marks",
            Self::Unknown { .. } => "unknown answer",
        }
    }
}

impl fmt::Display for Refusal {
    fn fmt(&self, formatter: &mut fmt::Formatter<'_>) -> fmt::Result {
        formatter.write_str(self.name())?;
        if let Self::Unknown { number, .. } = self {
            write!(formatter, " {number}")?;
        }
        match self.record() {
            Some(record) => write!(formatter, " (record {record})"),
            None => Ok(()),
        }
    }
}

impl Error for Refusal {}

#[cfg(test)]
mod tests {
    use super::*;

    #[test]
    fn accepted() {
        assert_eq!(Answer::from_raw(0), Some(Answer::Accepted { entries: 0 }));
        let most = Answer::Accepted { entries: u32::MAX };
        assert_eq!(Answer::from_raw(u32::MAX.into()), Some(most));
        assert_eq!(u64::from(most), u32::MAX.into());
    }

    /// Every number, with its name, there and back.
    #[test]
    fn refused() {
        let names = [
            "odd sheet",
            "long sheet",
            "long text",
            "unknown kind",
            "bad level",
            "misplaced",
            "bad field",
            "text outside",
            "not UTF-8",
            "tags missing",
            "short report",
            "short marks",
        ];
        for (name, number) in names.into_iter().zip(1..) {
            let about = (4..=10).contains(&number);
            let record = if about { 65_534 } else { 0 };
            let answer = u64::from(number) << 32 | u64::from(record);
            let refusal = Refusal::from_raw(number, record).unwrap();
            // A check does not refuse for its marks: it has none.
            let of_check = refusal != Refusal::ShortMarks;
            let wanted = of_check.then_some(Answer::Refused(refusal));
            assert_eq!(Answer::from_raw(answer), wanted);
            assert_eq!(u64::from(Answer::Refused(refusal)), answer);
            assert_eq!((refusal.number(), refusal.name()), (number, name));
            assert_eq!(refusal.record(), about.then_some(record));
            let shown = refusal.to_string();
            assert_eq!(shown.contains("(record 65534)"), about, "{shown}");
            assert!(shown.starts_with(name));
        }
    }

    #[test]
    fn no_answer() {
        assert_eq!(Answer::from_raw(1 << 32 | 1), None);
        assert_eq!(Answer::from_raw(11 << 32 | 1), None);
        assert_eq!(Answer::from_raw(12 << 32), None);
        assert_eq!(Answer::from_raw(u64::MAX), None);
        assert_eq!(
            (Refusal::from_raw(0, 0), Refusal::from_raw(13, 0)),
            (None, None)
        );
        assert_eq!(Refusal::from_raw(12, 1), None);
    }

    /// The number and the record of an answer that is not known are kept.
    #[test]
    fn unknown() {
        let answer = 99 << 32 | 7;
        let refusal = Refusal::unknown(answer);
        assert_eq!((refusal.number(), refusal.record()), (99, Some(7)));
        assert_eq!(refusal.to_string(), "unknown answer 99 (record 7)");
        assert_eq!(u64::from(Answer::Refused(refusal)), answer);
    }
}
