//! Compares `reedsander_check` and `reedsander_set` with the Rust reference
//! and a plain reading of document 01, and tests demand 3 on their answers:
//! `differential [--short] [--seed N] [--trees N]`. With `--trees` it makes so
//! many random trees, as many damaged ones, and those mended, and no other
//! sheet. With `--listing PROGRAM` it runs the listing program instead, on
//! `--films N` of each sort of film. With `--published FILE..` it parses
//! Markdown files, folders of them, and published suites in JSON with
//! cmark-gfm, and compares the sheets of their documents.
//!
//! It exits with 1 where a call or a film differs, and, but for `--published`,
//! where a rule, a stop or a refusal was never seen.

#![forbid(unsafe_code)]

use std::{env, ops::Range, path::PathBuf, process::ExitCode, thread, time::Instant};

use differential::{Films, Harness, Plan, Published};

/// The seed without `--seed`.
const SEED: u64 = 1;

/// How many films of each sort without `--films`.
const FILMS: u64 = 5000;

/// Bytes of a stack for documents as deep as can be.
const LONG_STACK: usize = 1 << 28;

/// What is to be done.
enum Work {
    Calls(Plan, &'static [Part]),
    Films {
        program: PathBuf,
        seed: u64,
        many: u64,
    },
    Published {
        files: Vec<PathBuf>,
        seed: u64,
    },
}

fn main() -> ExitCode {
    match work(env::args().skip(1)) {
        Some(Work::Calls(plan, parts)) => run(plan, parts),
        Some(Work::Films {
            program,
            seed,
            many,
        }) => run_films(program, seed, many),
        Some(Work::Published { files, seed }) => on_long_stack(move || run_published(&files, seed)),
        None => {
            eprintln!("usage: differential [--short] [--seed N] [--trees N]");
            eprintln!("       differential --listing PROGRAM [--films N] [--seed N]");
            eprintln!("       differential [--seed N] --published FILE..");
            ExitCode::from(2)
        }
    }
}

fn work(mut arguments: impl Iterator<Item = String>) -> Option<Work> {
    let (mut short, mut seed) = (false, SEED);
    let (mut program, mut many, mut trees) = (None, None, None);
    while let Some(argument) = arguments.next() {
        match argument.as_str() {
            "--short" => short = true,
            "--seed" => seed = arguments.next()?.parse().ok()?,
            "--trees" => trees = Some(arguments.next()?.parse().ok()?),
            "--listing" => program = Some(PathBuf::from(arguments.next()?)),
            "--films" => many = Some(arguments.next()?.parse().ok()?),
            "--published" => return published(arguments, seed),
            _ => return None,
        }
    }
    match (program, many, short) {
        (Some(program), many, false) => Some(Work::Films {
            program,
            seed,
            many: many.unwrap_or(FILMS),
        }),
        (None, None, true) => Some(calls(Plan::short(seed), trees)),
        (None, None, false) => Some(calls(Plan::full(seed), trees)),
        _ => None,
    }
}

/// The rest of the arguments names files, one or more.
fn published(arguments: impl Iterator<Item = String>, seed: u64) -> Option<Work> {
    let files: Vec<PathBuf> = arguments.map(PathBuf::from).collect();
    (!files.is_empty()).then_some(Work::Published { files, seed })
}

/// The whole plan, or so many trees alone.
fn calls(plan: Plan, trees: Option<u64>) -> Work {
    match trees {
        Some(trees) => Work::Calls(Plan { trees, ..plan }, &PARTS[TREES]),
        None => Work::Calls(plan, &PARTS),
    }
}

/// Runs the listing program on every film.
fn run_films(program: PathBuf, seed: u64, many: u64) -> ExitCode {
    let start = Instant::now();
    let mut films = Films::new(program, |shown| println!("{shown}"));
    if let Err(error) = films.all(seed, many) {
        eprintln!("differential: the listing program: {error}");
        return ExitCode::FAILURE;
    }
    print!("{films}");
    let unseen = films.unseen();
    for printed in &unseen {
        println!("never seen: {printed}");
    }
    println!(
        "films {}, differences {}, {:.1} s",
        films.films(),
        films.differences(),
        start.elapsed().as_secs_f64()
    );
    match films.differences() == 0 && unseen.is_empty() {
        true => ExitCode::SUCCESS,
        false => ExitCode::FAILURE,
    }
}

/// Does the work where calls may be as deep as a document.
fn on_long_stack(work: impl FnOnce() -> ExitCode + Send + 'static) -> ExitCode {
    let thread = thread::Builder::new().stack_size(LONG_STACK).spawn(work);
    let done = thread.map(thread::JoinHandle::join);
    done.expect("a thread").unwrap_or(ExitCode::FAILURE)
}

/// Compares every document of the files.
fn run_published(files: &[PathBuf], seed: u64) -> ExitCode {
    let start = Instant::now();
    let mut published = Published::new(seed, |shown| println!("{shown}"));
    if let Err(error) = published.all(files) {
        eprintln!("differential: {error}");
        return ExitCode::FAILURE;
    }
    print!("{published}");
    let differences = published.harness.differences;
    println!(
        "differences {differences}, {:.1} s",
        start.elapsed().as_secs_f64()
    );
    match differences {
        0 => ExitCode::SUCCESS,
        _ => ExitCode::FAILURE,
    }
}

/// A part of the run.
type Part = (&'static str, fn(&mut Harness, Plan));

const PARTS: [Part; 8] = [
    ("limits", Harness::limits),
    ("names of tags", Harness::names),
    ("small sheets", Harness::small),
    ("all small sheets", Harness::all_small),
    ("random trees", Harness::trees),
    ("damaged trees", Harness::damaged),
    ("mended trees", Harness::mended),
    ("reports and marks of every length", Harness::lengths),
];

/// The parts that make trees.
const TREES: Range<usize> = 4..7;

fn run(plan: Plan, parts: &[Part]) -> ExitCode {
    let last = plan.seed + plan.trees - 1;
    println!("seeds {} to {last}", plan.seed);
    let mut harness = Harness::new(plan.seed, |shown| println!("{shown}"));
    for &(name, part) in parts {
        timed(name, &mut harness, |harness| part(harness, plan));
    }
    print!("{}", harness.counts);
    verdict(&harness)
}

/// Runs a part and prints its line.
fn timed(name: &str, harness: &mut Harness, part: impl FnOnce(&mut Harness)) {
    let (before, start) = (harness.counts.clone(), Instant::now());
    part(harness);
    let counts = &harness.counts;
    let sheets = counts.sheets - before.sheets;
    let accepted = counts.accepted - before.accepted;
    println!(
        "{name}: {sheets} sheets ({accepted} accepted, {} refused), {} calls, {:.1} s",
        sheets - accepted,
        counts.calls() - before.calls(),
        start.elapsed().as_secs_f64()
    );
}

fn verdict(harness: &Harness) -> ExitCode {
    let unseen = harness.counts.unseen();
    if !unseen.is_empty() {
        println!("never seen: {}", unseen.join(", "));
    }
    println!("differences {}", harness.differences);
    match harness.differences == 0 && unseen.is_empty() {
        true => ExitCode::SUCCESS,
        false => ExitCode::FAILURE,
    }
}
