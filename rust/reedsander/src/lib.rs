//! Reedsander checks the grade notes of films before they are set, and sets
//! them. The checker and the setting machine are proved, and are C functions;
//! this crate calls them.
//!
//! A check lends the checker a sheet, its text and a report. The sheet is the
//! tree of notes as records of [`RECORD_WORDS`] words; [`Sheet::new`] makes
//! it from a [`tree`]. Either the sheet is refused, see [`Refusal`], and
//! nothing is changed; or it is accepted, and the report holds an [`Entry`]
//! for everything that is wrong with the notes, in the order of the walk. An
//! accepted sheet without an entry can be set.
//!
//! # Example
//!
//! A shot table with a cell too few:
//!
//! ```
//! use reedsander::{
//!     tree::{Block, Cell, Inline, Row},
//!     Refusal, Rule, Sheet,
//! };
//!
//! let sheet = Sheet::new(&[
//!     Block::heading(1, [Inline::text("Reel 2")]),
//!     Block::table(
//!         2,
//!         [
//!             Row::new([Cell::text("shot"), Cell::text("printer lights")]),
//!             Row::new([Cell::text("14"), Cell::text("26 25 29")]),
//!             Row::new([Cell::text("15")]).at(61, 67),
//!         ],
//!     ),
//! ]);
//!
//! let report = sheet.check()?;
//! assert_eq!(report.len(), 1);
//! let entry = report.iter().next().unwrap();
//! assert_eq!(entry.rule, Rule::ROW_WIDTH);
//! assert_eq!(entry.span, Some((61, 67)));
//! assert_eq!(entry.path, [1, 2], "the second block's third row");
//! assert_eq!(
//!     entry.to_string(),
//!     "rule 19 (table: row width) at 1/2, bytes 61 to 67"
//! );
//!
//! // The same with words of the caller's own, and a report of its own.
//! let mut report = [0; 64];
//! let mut entries = reedsander::check(sheet.words(), sheet.text(), &mut report)?;
//! assert_eq!(entries.len(), 1);
//! assert_eq!(entries.next().unwrap().rule, Rule::ROW_WIDTH);
//!
//! // An entry takes five words and its path.
//! let mut short = [0; 6];
//! assert_eq!(sheet.check_into(&mut short), Err(Refusal::ShortReport));
//! # Ok::<(), Refusal>(())
//! ```
//!
//! # A setter
//!
//! The setting machine ([`set`]) opens and closes the records of a sheet in
//! order, and gives each a mark: a heading its depth, a cell its column, an
//! item of an ordered list its number, counted on from that of the first item.
//! Where it cannot go on it stops, see [`Stop`]. It does not read the checker's
//! list, but the two agree: it stops exactly when the list has an entry of a
//! rule that belongs to a stop. So a sheet whose list is empty is set to its
//! end.
//!
//! A setter that hands on no page while there is something in the list, and
//! marks each fault where its path leads. The records of all paths are found
//! once, in [`Paths`]:
//!
//! ```
//! use reedsander::{
//!     tree::{Block, Inline, Item, Marker},
//!     Refusal, Sheet,
//! };
//!
//! /// What goes to the setting room.
//! #[derive(PartialEq, Debug)]
//! enum Page {
//!     /// A mark for each record.
//!     Set(Vec<u32>),
//!     /// The records that are at fault, and what each fault is.
//!     Faulty(Vec<(usize, String)>),
//! }
//!
//! fn page(sheet: &Sheet) -> Result<Page, Refusal> {
//!     let report = sheet.check()?;
//!     let (setting, marks) = sheet.set()?;
//!     if report.is_empty() && setting.is_ended() {
//!         return Ok(Page::Set(marks));
//!     }
//!     let paths = sheet.paths();
//!     let faults = report.iter().map(|entry| {
//!         let record = paths.record(entry.path).expect("a path of this sheet");
//!         (record, entry.name().to_string())
//!     });
//!     Ok(Page::Faulty(faults.collect()))
//! }
//!
//! /// Two numbered passes, the first of which is the seventh of the reel.
//! fn passes(first: &str) -> Sheet {
//!     let pass = |text| [Block::paragraph([Inline::text(text)])];
//!     let items = [Item::new(pass(first)).number(7), Item::new(pass("timing"))];
//!     Sheet::new(&[
//!         Block::heading(2, [Inline::text("Reel 2")]),
//!         Block::tight_list(Marker::PERIOD, items),
//!     ])
//! }
//!
//! // Heading, its text, list, item 7, its paragraph and text, item 8 ...
//! let set = page(&passes("density"))?;
//! assert_eq!(set, Page::Set(vec![2, 0, 0, 7, 0, 0, 8, 0, 0]));
//!
//! // A paragraph of nothing: record 4, under the first item.
//! let faulty = page(&passes(""))?;
//! let fault = (4, "empty paragraph".to_string());
//! assert_eq!(faulty, Page::Faulty(vec![fault]));
//! # Ok::<(), Refusal>(())
//! ```
//!
//! A setter that has words and text of its own does the same with a
//! [`SheetRef`] of them.
//!
//! # From a `Document`
//!
//! [`adapt!`] makes the sheet of a `Document` of the notes' own tree, and leads
//! back from a path or a record to the node; see the module
//! [`adapt`](mod@adapt).
//!
//! # The library
//!
//! The checker and the setting machine are in `libsetter.a`, for x86-64. In a
//! clone of Reedsander's repository the build script proves and builds it by
//! `./staticlib`, which takes some minutes and needs Rattle's command `rt`.
//! Anywhere else, and where `rt` is not at hand, `REEDSANDER_LIB_DIR` names
//! the folder that holds the library, by an absolute path.
//!
//! Calls share nothing: any number of them may run at once, in as many
//! threads, each on a stack of 256 KiB or more.

#![deny(unsafe_code)]
#![warn(
    missing_docs,
    clippy::must_use_candidate,
    clippy::return_self_not_must_use,
    clippy::missing_errors_doc,
    clippy::missing_panics_doc
)]

pub mod adapt;
mod answer;
#[allow(unsafe_code)]
mod call;
mod film;
mod kind;
mod paths;
mod report;
mod rule;
mod setting;
mod sheet;
mod sheet_ref;
pub mod tree;

pub use answer::{Answer, Refusal};
pub use call::{check_raw, set_raw};
pub use film::film;
pub use kind::Kind;
pub use paths::Paths;
pub use report::{Entries, Entry, Report};
pub use rule::Rule;
pub use setting::{Setting, Stop};
pub use sheet::Sheet;
pub use sheet_ref::{SheetRef, RECORD_WORDS};

/// How many words the first report of [`check_to_vec`] has.
const FIRST_REPORT: usize = 1024;

/// Checks a sheet with its text. The entries stand in the report; its words
/// behind them are as they were.
///
/// # Errors
///
/// Where the sheet is refused, or the report has too few words. Then no word
/// of the report is changed.
pub fn check<'r>(
    sheet: &[u32],
    text: &[u8],
    report: &'r mut [u32],
) -> Result<Entries<'r>, Refusal> {
    let answer = check_raw(sheet, text, report);
    let entries = accepted(answer)?;
    Entries::new(report, entries).ok_or(Refusal::unknown(answer))
}

/// Sets a sheet with its text: opens its records in order and closes them
/// innermost first, or stops. Each record that was opened has its mark at its
/// own number, counted from 0; all other marks are as they were. It wants as
/// many marks as there are records, or more.
///
/// # Errors
///
/// Where the sheet is refused, or there are fewer marks than records. Then no
/// mark is changed.
pub fn set(sheet: &[u32], text: &[u8], marks: &mut [u32]) -> Result<Setting, Refusal> {
    let answer = set_raw(sheet, text, marks);
    Setting::from_raw(answer).unwrap_or(Err(Refusal::unknown(answer)))
}

/// Checks a sheet with its text, with a report that grows until the list has
/// room.
///
/// # Errors
///
/// Where the sheet is refused; never [`Refusal::ShortReport`].
pub fn check_to_vec(sheet: &[u32], text: &[u8]) -> Result<Report, Refusal> {
    let mut words = vec![0; FIRST_REPORT];
    loop {
        let answer = check_raw(sheet, text, &mut words);
        match accepted(answer) {
            Ok(entries) => return Report::new(words, entries).ok_or(Refusal::unknown(answer)),
            Err(Refusal::ShortReport) => words.resize(words.len() * 4, 0),
            Err(refusal) => return Err(refusal),
        }
    }
}

/// How many entries an answer of the checker counts.
fn accepted(answer: u64) -> Result<u32, Refusal> {
    match Answer::from_raw(answer) {
        Some(Answer::Accepted { entries }) => Ok(entries),
        Some(Answer::Refused(refusal)) => Err(refusal),
        None => Err(Refusal::unknown(answer)),
    }
}
