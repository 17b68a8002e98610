//! What the setting machine answers, and its stops.

use std::fmt;

use crate::{
    answer::{halves, whole},
    Refusal, Rule,
};

/// What is added to the number of a refusal in the machine's answer.
const REFUSED: u32 = 256;

/// How the setting machine's run came out. Records are counted from 0.
///
/// A setting that is not looked at may hide a stop, so the compiler warns:
///
/// ```compile_fail
/// #![deny(unused_must_use)]
/// # let sheet = reedsander::Sheet::default();
/// sheet.set_into(&mut [])?;
/// # Ok::<(), reedsander::Refusal>(())
/// ```
///
/// and this is what to write:
///
/// ```
/// #![deny(unused_must_use)]
/// # let sheet = reedsander::Sheet::default();
/// let setting = sheet.set_into(&mut [])?;
/// assert!(setting.is_ended());
/// # Ok::<(), reedsander::Refusal>(())
/// ```
#[derive(Clone, Copy, PartialEq, Eq, Hash, Debug)]
#[must_use]
#[non_exhaustive]
pub enum Setting {
    /// Every record was opened and closed.
    Ended {
        /// How many there are.
        records: u32,
    },
    /// A record was not opened, or not closed, and the run ended there.
    Stopped {
        /// Why.
        stop: Stop,
        /// The record.
        record: u32,
    },
}

/// Why the setting machine stops at a record.
#[derive(Clone, Copy, PartialEq, Eq, PartialOrd, Ord, Hash, Debug)]
#[non_exhaustive]
pub enum Stop {
    /// 1: a cell, opened past the columns that its table aligns.
    CellTooMany,
    /// 2: a row, closed with fewer cells than its table aligns columns.
    CellTooFew,
    /// 3: a table, closed without a row, or without a column.
    EmptyTable,
    /// 4: an inline break, opened in a cell or in the label of a leaf or
    /// container directive.
    BreakInLine,
    /// 5: a link, autolink, link reference or wikilink, opened under a link
    /// or link reference.
    LinkInLink,
    /// 6: a heading, opened with a depth that is not 1 to 6.
    HeadingDepth,
    /// 7: an ordered item, opened with a number of its own over 999,999,999.
    ItemNumber,
    /// 8: a bullet item, opened with a number.
    BulletNumber,
    /// 9: a list, closed without an item.
    EmptyList,
    /// 10: a paragraph, emphasis, strong, delete or mark, closed with nothing
    /// but empty texts.
    EmptyContent,
    /// 11: a soft or spaces break, opened straight after a break.
    BreakAfterBreak,
    /// 12: frontmatter, opened inside something.
    InnerFrontmatter,
    /// 13: a text or inline code, opened with a CR or LF in it.
    LineEnding,
    /// 14: a list, opened after a list of the same written marker, with
    /// nothing but blank lines between.
    AdjacentLists,
}

impl Setting {
    /// The answer that the C function's number is: its upper 32 bits are 0
    /// and the lower ones the number of records, or the upper ones are the
    /// number of a stop, or 256 and that of a refusal, and the lower ones the
    /// record. None for a number that is no answer.
    #[must_use]
    pub fn from_raw(answer: u64) -> Option<Result<Self, Refusal>> {
        let (number, low) = halves(answer);
        match number {
            0 => Some(Ok(Self::Ended { records: low })),
            1..REFUSED => {
                let stop = Stop::from_raw(number)?;
                Some(Ok(Self::Stopped { stop, record: low }))
            }
            REFUSED.. => Refusal::from_raw(number - REFUSED, low)
                .filter(|refusal| *refusal != Refusal::ShortReport)
                .map(Err),
        }
    }

    /// Whether every record was opened and closed.
    #[must_use]
    pub const fn is_ended(self) -> bool {
        matches!(self, Self::Ended { .. })
    }

    /// The stop, and the record that it is at. None at the end.
    #[must_use]
    pub const fn stop(self) -> Option<(Stop, usize)> {
        match self {
            Self::Ended { .. } => None,
            Self::Stopped { stop, record } => Some((stop, record as usize)),
        }
    }
}

impl From<Setting> for u64 {
    /// The C function's number for the answer.
    fn from(setting: Setting) -> Self {
        match setting {
            Setting::Ended { records } => whole(0, records),
            Setting::Stopped { stop, record } => whole(stop.number(), record),
        }
    }
}

/// For people: `stop 6 (heading depth) at record 3`.
impl fmt::Display for Setting {
    fn fmt(&self, formatter: &mut fmt::Formatter<'_>) -> fmt::Result {
        match self {
            Self::Ended { records } => write!(formatter, "ended, records {records}"),
            Self::Stopped { stop, record } => write!(formatter, "{stop} at record {record}"),
        }
    }
}

impl Stop {
    /// Every stop, in the order of the numbers.
    pub const ALL: &'static [Self] = &[
        Self::CellTooMany,
        Self::CellTooFew,
        Self::EmptyTable,
        Self::BreakInLine,
        Self::LinkInLink,
        Self::HeadingDepth,
        Self::ItemNumber,
        Self::BulletNumber,
        Self::EmptyList,
        Self::EmptyContent,
        Self::BreakAfterBreak,
        Self::InnerFrontmatter,
        Self::LineEnding,
        Self::AdjacentLists,
    ];

    /// The stop of a number; None for a number that is no stop.
    #[must_use]
    pub fn from_raw(number: u32) -> Option<Self> {
        let index = usize::try_from(number).ok()?.checked_sub(1)?;
        Self::ALL.get(index).copied()
    }

    /// Its number, 1 to 14.
    #[must_use]
    pub const fn number(self) -> u32 {
        self as u32 + 1
    }

    /// What it is called.
    #[must_use]
    pub const fn name(self) -> &'static str {
        match self {
            Self::CellTooMany => "cell too many",
            Self::CellTooFew => "cell too few",
            Self::EmptyTable => "empty table",
            Self::BreakInLine => "break in line",
            Self::LinkInLink => "link in link",
            Self::HeadingDepth => "heading depth",
            Self::ItemNumber => "item number",
            Self::BulletNumber => "bullet number",
            Self::EmptyList => "empty list",
            Self::EmptyContent => "empty content",
            Self::BreakAfterBreak => "break after break",
            Self::InnerFrontmatter => "inner frontmatter",
            Self::LineEnding => "line ending",
            Self::AdjacentLists => "adjacent lists",
        }
    }

    /// The rules that belong to it: where the machine stops so, the checker's
    /// list has an entry of one of them, whose path begins with that of the
    /// block it stopped in; see [`Sheet::block_path`](crate::Sheet::block_path).
    #[must_use]
    pub const fn rules(self) -> &'static [Rule] {
        match self {
            Self::CellTooMany | Self::CellTooFew | Self::EmptyTable => &[
                Rule::TABLE_WITHOUT_ROW,
                Rule::TABLE_WITHOUT_CELL,
                Rule::ALIGNMENT_COUNT,
                Rule::ROW_WIDTH,
            ],
            Self::BreakInLine => &[
                Rule::BREAK_IN_CELL,
                Rule::BREAK_IN_LEAF_LABEL,
                Rule::BREAK_IN_CONTAINER_LABEL,
            ],
            Self::LinkInLink => &[Rule::LINK_IN_LINK],
            Self::HeadingDepth => &[Rule::HEADING_DEPTH],
            Self::ItemNumber => &[Rule::LONG_NUMBER],
            Self::BulletNumber => &[Rule::BULLET_NUMBER],
            Self::EmptyList => &[Rule::EMPTY_LIST],
            Self::EmptyContent => &[Rule::EMPTY_PARAGRAPH, Rule::EMPTY_EMPHASIS],
            Self::BreakAfterBreak => &[Rule::BREAK_AFTER_BREAK],
            Self::InnerFrontmatter => &[Rule::FRONTMATTER_INSIDE],
            Self::LineEnding => &[Rule::LINE_ENDING_IN_TEXT, Rule::LINE_ENDING_IN_CODE],
            Self::AdjacentLists => &[Rule::ADJACENT_LISTS],
        }
    }
}

/// For people: `stop 6 (heading depth)`.
impl fmt::Display for Stop {
    fn fmt(&self, formatter: &mut fmt::Formatter<'_>) -> fmt::Result {
        write!(formatter, "stop {} ({})", self.number(), self.name())
    }
}

#[cfg(test)]
mod tests {
    use super::*;

    fn there_and_back(answer: u64, setting: Setting) {
        assert_eq!(Setting::from_raw(answer), Some(Ok(setting)));
        assert_eq!(u64::from(setting), answer);
    }

    #[test]
    fn ended() {
        there_and_back(0, Setting::Ended { records: 0 });
        there_and_back(65_535, Setting::Ended { records: 65_535 });
        let ended = Setting::Ended { records: 7 };
        assert_eq!(ended.to_string(), "ended, records 7");
        assert_eq!((ended.is_ended(), ended.stop()), (true, None));
    }

    /// Every number, there and back, and no two names alike.
    #[test]
    fn stopped() {
        for (&stop, number) in Stop::ALL.iter().zip(1..) {
            assert_eq!(stop.number(), number);
            assert_eq!(Stop::from_raw(number), Some(stop));
            let record = 65_534;
            there_and_back(whole(number, record), Setting::Stopped { stop, record });
            let mut others = Stop::ALL.iter().filter(|&&other| other != stop);
            assert!(others.all(|other| other.name() != stop.name()));
        }
        let stopped = Setting::Stopped {
            stop: Stop::HeadingDepth,
            record: 3,
        };
        assert_eq!(stopped.to_string(), "stop 6 (heading depth) at record 3");
        let stop = Some((Stop::HeadingDepth, 3));
        assert_eq!((stopped.is_ended(), stopped.stop()), (false, stop));
        for number in [0, 15, u32::MAX] {
            assert_eq!(Stop::from_raw(number), None);
        }
    }

    /// Every refusal of the machine, which has 12 and not 11.
    #[test]
    fn refused() {
        for number in 1..=12 {
            let about = (4..=10).contains(&number);
            let record = if about { 9 } else { 0 };
            let refusal = Refusal::from_raw(number, record).unwrap();
            let wanted = Some(Err(refusal)).filter(|_| refusal != Refusal::ShortReport);
            assert_eq!(Setting::from_raw(whole(256 + number, record)), wanted);
        }
    }

    #[test]
    fn no_answer() {
        for number in [15, 255, 256, 269, u32::MAX] {
            assert_eq!(Setting::from_raw(whole(number, 0)), None);
        }
        for number in [257, 268] {
            assert_eq!(Setting::from_raw(whole(number, 1)), None);
        }
    }

    /// Document 01 names each of these beside a stop, and no other rule.
    #[test]
    fn rules() {
        let all: Vec<Vec<u32>> = Stop::ALL
            .iter()
            .map(|stop| stop.rules().iter().map(|rule| rule.number()).collect())
            .collect();
        let table = vec![16, 17, 18, 19];
        let named = [
            table.clone(),
            table.clone(),
            table,
            vec![20, 22, 23],
            vec![42],
            vec![10],
            vec![50],
            vec![49],
            vec![12],
            vec![2, 39],
            vec![37],
            vec![28],
            vec![31, 45],
            vec![1],
        ];
        assert_eq!(all, named);
    }
}
