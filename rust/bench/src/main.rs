//! Times `reedsander_check` and `reedsander_set`, and beside them Rust on the
//! same sheets: `bench` (a release build).
//!
//! Each round of a check times, one after another, the checker on the sheet,
//! the Rust reference's `validate_document` on a tree that is ready, and the
//! Rust from the sheet: its tree made, checked and dropped. The Rust's list
//! has the diagnostics of dropped messages too, and is dropped outside the
//! times. Its search for line endings is the oracle's plain one: the file that
//! has its own is not at hand.
//!
//! Each round of a setting times the setting machine, a machine in Rust on
//! the sheet that is known to be accepted (`machine`), and the refusals in
//! Rust and then that machine (`accept`), which is what `reedsander_set` does.
//!
//! Last, the records of many entries are looked up by their paths, with an
//! index that is made once.
//!
//! The medians of all rounds are compared.

#![forbid(unsafe_code)]

mod accept;
mod machine;
mod pages;

use std::{
    hint::black_box,
    time::{Duration, Instant},
};

use oracle::ast::Document;
use pages::Page;
use reedsander::Sheet;

/// How long the rounds of one page last together, about.
const BUDGET: Duration = Duration::from_secs(3);

/// How many rounds there are at least, and at most.
const ROUNDS: std::ops::RangeInclusive<u32> = 15..=1001;

fn main() {
    if cfg!(debug_assertions) {
        eprintln!("bench: this is a debug build; its times say little");
    }
    titles("check", "entries");
    let [few, many] = pages::tables().map(|page| checked(&page));
    for page in pages::others() {
        checked(&page);
    }
    growth(&few, &many);
    println!();
    titles("set", "stops");
    let [few, many] = pages::tables().map(|page| set(&page));
    for page in pages::set_to_the_end() {
        set(&page);
    }
    growth(&few, &many);
    println!();
    look_up(&pages::bad_rows());
}

/// The median times of a page.
struct Times {
    ours: Duration,
    /// The Rust on a tree, or a sheet, that is ready.
    ready: Duration,
    /// The Rust from the sheet.
    built: Duration,
}

fn titles(what: &str, count: &str) {
    println!(
        "{what:<34} {:>7} {:>9} {count:>7} {:>6} {:>10} {:>10} {:>10} {:>7} {:>7}",
        "records", "bytes", "rounds", "ours us", "ready us", "sheet us", "/ready", "/sheet"
    );
}

fn growth(few: &Times, many: &Times) {
    println!(
        "growth from {} to {} rows: ours {:.2}, Rust on what is ready {:.2}, Rust from the sheet {:.2}",
        pages::FEW_ROWS,
        pages::MANY_ROWS,
        ratio(many.ours, few.ours),
        ratio(many.ready, few.ready),
        ratio(many.built, few.built)
    );
}

/// Times the check of a page and prints its line.
fn checked(page: &Page) -> Times {
    let sheet = &page.sheet;
    let tree = oracle::document(sheet.words(), sheet.text());
    let list = oracle::list(sheet.words(), sheet.text());
    let mut report = vec![0; list.len()];
    let entries = entries(sheet, &mut report);
    assert_eq!(report, list, "{}", page.name);
    timed(page, entries, || check_round(sheet, &tree, &mut report))
}

/// Times the setting of a page, which comes to the end, and prints its line.
fn set(page: &Page) -> Times {
    let sheet = &page.sheet;
    let mut marks = vec![0; sheet.records()];
    let mut theirs = marks.clone();
    let setting = sheet.set_into(&mut marks).expect("an accepted sheet");
    assert!(setting.is_ended(), "{}", page.name);
    let answer = machine::set(sheet.words(), sheet.text(), &mut theirs);
    assert_eq!(answer, u64::from(setting), "{}", page.name);
    assert_eq!(marks, theirs, "{}", page.name);
    timed(page, 0, || set_round(sheet, &mut marks))
}

/// Times rounds and prints the page's line.
fn timed(page: &Page, count: u32, mut round: impl FnMut() -> Times) -> Times {
    let start = Instant::now();
    let mut rounds = Vec::new();
    while rounds.len() < *ROUNDS.start() as usize
        || start.elapsed() < BUDGET && rounds.len() < *ROUNDS.end() as usize
    {
        rounds.push(round());
    }
    let times = Times {
        ours: median(rounds.iter().map(|times| times.ours)),
        ready: median(rounds.iter().map(|times| times.ready)),
        built: median(rounds.iter().map(|times| times.built)),
    };
    println!(
        "{:<34} {:>7} {:>9} {count:>7} {:>6} {:>10.1} {:>10.1} {:>10.1} {:>7.3} {:>7.3}",
        page.name,
        page.sheet.records(),
        page.sheet.text().len(),
        rounds.len(),
        micros(times.ours),
        micros(times.ready),
        micros(times.built),
        ratio(times.ours, times.ready),
        ratio(times.ours, times.built)
    );
    times
}

/// Times the check of a page, the index of its paths, and the look-up of every
/// entry's record, and prints a line.
fn look_up(page: &Page) {
    let sheet = &page.sheet;
    let mut rounds = Vec::new();
    for _ in 0..*ROUNDS.start() {
        let start = Instant::now();
        let report = sheet.check().expect("an accepted sheet");
        let checked = start.elapsed();
        let start = Instant::now();
        let paths = sheet.paths();
        let indexed = start.elapsed();
        let start = Instant::now();
        let records = report.iter().filter_map(|entry| paths.record(entry.path));
        let found = records.map(black_box).count();
        rounds.push([checked, indexed, start.elapsed()]);
        assert_eq!(found, report.len(), "{}", page.name);
    }
    let [checked, indexed, found] =
        [0, 1, 2].map(|at| micros(median(rounds.iter().map(|times| times[at]))));
    println!(
        "{}: check {checked:.1} us, index of paths {indexed:.1} us, all records {found:.1} us",
        page.name
    );
}

/// How many entries the checker writes.
fn entries(sheet: &Sheet, report: &mut [u32]) -> u32 {
    let entries = sheet.check_into(report).expect("an accepted sheet");
    entries.len() as u32
}

/// One of each.
fn check_round(sheet: &Sheet, tree: &Document, report: &mut [u32]) -> Times {
    let (words, text) = (black_box(sheet.words()), black_box(sheet.text()));
    let start = Instant::now();
    black_box(reedsander::check_raw(words, text, report));
    let ours = start.elapsed();

    let start = Instant::now();
    let list = oracle::validate(black_box(tree));
    let ready = start.elapsed();
    drop(black_box(list));

    let start = Instant::now();
    let tree = oracle::document(words, text);
    let list = oracle::validate(&tree);
    drop(tree);
    let built = start.elapsed();
    drop(black_box(list));
    Times { ours, ready, built }
}

/// One of each.
fn set_round(sheet: &Sheet, marks: &mut [u32]) -> Times {
    let (words, text) = (black_box(sheet.words()), black_box(sheet.text()));
    let start = Instant::now();
    black_box(reedsander::set_raw(words, text, black_box(marks)));
    let ours = start.elapsed();

    let start = Instant::now();
    black_box(machine::set(words, text, black_box(marks)));
    let ready = start.elapsed();

    let start = Instant::now();
    if black_box(accept::refusal(words, text)).0 == 0 {
        black_box(machine::set(words, text, black_box(marks)));
    }
    let built = start.elapsed();
    Times { ours, ready, built }
}

fn median(times: impl Iterator<Item = Duration>) -> Duration {
    let mut times: Vec<Duration> = times.collect();
    times.sort_unstable();
    times[times.len() / 2]
}

fn micros(time: Duration) -> f64 {
    time.as_secs_f64() * 1e6
}

fn ratio(ours: Duration, theirs: Duration) -> f64 {
    ours.as_secs_f64() / theirs.as_secs_f64()
}

#[cfg(test)]
mod tests {
    use super::*;
    use cases::{damage, random, Numbers};

    /// What is timed beside ours answers as document 01 has it.
    #[test]
    fn rust_answers() {
        let mut stops = [0; 15];
        let mut refusals = [0; 11];
        for seed in 0..20_000 {
            let tree = random::tree(seed, 3 + (seed % 29) as usize);
            let damaged = damage::damaged(&mut Numbers::new(!seed), tree.clone());
            for (sheet, text) in [tree, damaged] {
                let refusal = oracle::refusal(&sheet, &text);
                assert_eq!(accept::refusal(&sheet, &text), refusal, "{seed}");
                refusals[refusal.0 as usize] += 1;
                if refusal.0 == 0 {
                    let records = sheet.len() / reedsander::RECORD_WORDS;
                    let mut marks = vec![u32::MAX; records];
                    let (answer, run) = oracle::set(&sheet, &text, records);
                    assert_eq!(machine::set(&sheet, &text, &mut marks), answer, "{seed}");
                    assert_eq!(marks[..run.marks.len()], run.marks, "{seed}");
                    stops[(answer >> 32) as usize] += 1;
                }
            }
        }
        assert!(stops.iter().all(|&count| count > 0), "{stops:?}");
        let small = |number: &usize| *number != 2 && *number != 3;
        let mut seen = (0..=10).filter(small);
        assert!(seen.all(|number| refusals[number] > 0), "{refusals:?}");
    }
}
