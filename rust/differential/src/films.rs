//! The listing program, run on films and compared with a plain reading of
//! document 01: every byte that it prints.

use std::{
    collections::BTreeMap,
    fmt,
    io::{self, ErrorKind, Write},
    path::PathBuf,
    process::{Command, Stdio},
};

use cases::{damage, films, mend, random, Numbers, Sheet, RECORD_WORDS};
use oracle::Run;

/// How many differences are printed.
const MOST_PRINTED: u64 = 5;

/// How often one tree is mended at most.
const MOST_MENDED: usize = 40;

/// What was printed, in short.
#[derive(Clone, Copy, PartialEq, Eq, PartialOrd, Ord, Debug)]
pub enum Printed {
    /// A refusal's number.
    Refused(u32),
    /// A list without an entry, or with some, and the number of the stop.
    Listed { empty: bool, stop: u32 },
    /// Neither.
    Other,
}

impl Printed {
    /// By the last line and the number of lines.
    pub fn of(output: &[u8]) -> Self {
        let output = String::from_utf8_lossy(output);
        let last = output.lines().last().unwrap_or_default();
        let numbers: Option<Vec<u32>> = last
            .split_whitespace()
            .map(|field| field.parse().ok())
            .collect();
        match (numbers.as_deref(), output.lines().count()) {
            (Some(&[number, _]), 1) => Self::Refused(number),
            (Some(&[entries, stop, _]), lines) if lines == entries as usize + 1 => Self::Listed {
                empty: entries == 0,
                stop,
            },
            _ => Self::Other,
        }
    }
}

impl fmt::Display for Printed {
    fn fmt(&self, formatter: &mut fmt::Formatter<'_>) -> fmt::Result {
        match self {
            Self::Refused(number) => write!(formatter, "refused {number}"),
            Self::Listed { empty, stop } => {
                let entries = if *empty { "no entry" } else { "entries" };
                match stop {
                    0 => write!(formatter, "{entries}, set to the end"),
                    _ => write!(formatter, "{entries}, stop {stop}"),
                }
            }
            Self::Other => formatter.write_str("neither a list nor a refusal"),
        }
    }
}

/// Runs the program, and counts what it was wanted to print and what differs.
pub struct Films {
    program: PathBuf,
    /// Films and those that differ, by what is wanted.
    counts: BTreeMap<Printed, [u64; 2]>,
    print: Box<dyn FnMut(&str)>,
}

impl Films {
    pub fn new(program: PathBuf, print: impl FnMut(&str) + 'static) -> Self {
        Self {
            program,
            counts: BTreeMap::new(),
            print: Box::new(print),
        }
    }

    /// Films at the limits, random ones, ones of sheets that are mended stop by
    /// stop, of damaged sheets, and damaged ones: `many` of each of the last
    /// four.
    pub fn all(&mut self, seed: u64, many: u64) -> io::Result<()> {
        for (name, film) in films::limits() {
            self.film(name, &film)?;
        }
        for seed in seed..seed + many {
            self.film("random film", &films::random(seed))?;
            let mut numbers = Numbers::new(!seed);
            let sheet = random::tree(seed, 2 + (seed % 9) as usize);
            let film = films::film(&mended(&mut numbers, sheet.clone()));
            self.film("mended sheet", &film)?;
            let mut damaged = damage::damaged(&mut numbers, sheet);
            let whole = damaged.0.len() / RECORD_WORDS * RECORD_WORDS;
            damaged.0.truncate(whole);
            self.film("damaged sheet", &films::film(&damaged))?;
            let film = films::damaged(&mut numbers, films::random(seed));
            self.film("damaged film", &film)?;
        }
        Ok(())
    }

    /// Compares what is printed for one film.
    fn film(&mut self, name: &str, film: &[u8]) -> io::Result<()> {
        let wanted = oracle::listing(film);
        let found = self.run(film)?;
        let differs = found != wanted;
        let shown = differs && self.differences() < MOST_PRINTED;
        let counts = self.counts.entry(Printed::of(&wanted)).or_default();
        counts[0] += 1;
        counts[1] += u64::from(differs);
        if shown {
            let [film, wanted, found] =
                [film, &wanted, &found].map(|bytes| bytes.escape_ascii().to_string());
            (self.print)(&format!(
                "{name} differs\n  film {film}\n  wanted {wanted}\n  found {found}"
            ));
        }
        Ok(())
    }

    /// What the program prints.
    fn run(&self, film: &[u8]) -> io::Result<Vec<u8>> {
        let mut child = Command::new(&self.program)
            .stdin(Stdio::piped())
            .stdout(Stdio::piped())
            .spawn()?;
        let mut input = child.stdin.take().expect("it is piped");
        // It may leave the end of a long film unread.
        match input.write_all(film) {
            Err(error) if error.kind() != ErrorKind::BrokenPipe => return Err(error),
            _ => drop(input),
        }
        let output = child.wait_with_output()?;
        match output.status.success() {
            true => Ok(output.stdout),
            false => Err(io::Error::other(output.status.to_string())),
        }
    }

    /// Films, and those that differ.
    pub fn films(&self) -> u64 {
        self.counts.values().map(|counts| counts[0]).sum()
    }

    pub fn differences(&self) -> u64 {
        self.counts.values().map(|counts| counts[1]).sum()
    }

    /// What was never wanted: of the refusals 4 to 11, 13 and 14, of the ends
    /// and stops with and without entries.
    pub fn unseen(&self) -> Vec<Printed> {
        let refused = (4..=11).chain([13, 14]).map(Printed::Refused);
        let stopped = (0..=14).map(|stop| Printed::Listed { empty: false, stop });
        let clean = [Printed::Listed {
            empty: true,
            stop: 0,
        }];
        let all = refused.chain(stopped).chain(clean);
        all.filter(|printed| !self.counts.contains_key(printed))
            .collect()
    }
}

/// A sheet whose stops are mended in turn, now and then up to the end.
fn mended(numbers: &mut Numbers, mut sheet: Sheet) -> Sheet {
    for _ in 0..numbers.one(&[1, 2, 4, MOST_MENDED]) {
        let Some(stop) = Run::of(&sheet.0, &sheet.1).stop else {
            break;
        };
        sheet = mend::mended(numbers, sheet, stop.number, stop.record);
    }
    sheet
}

impl fmt::Display for Films {
    fn fmt(&self, formatter: &mut fmt::Formatter<'_>) -> fmt::Result {
        for (printed, [films, differ]) in &self.counts {
            writeln!(formatter, "{films:>9} films {differ:>3} differ: {printed}")?;
        }
        Ok(())
    }
}

#[cfg(test)]
mod tests {
    use super::*;

    #[test]
    fn printed() {
        let of = |text: &str| Printed::of(text.as_bytes());
        assert_eq!(of("         13          0\n"), Printed::Refused(13));
        let listed = |empty, stop| Printed::Listed { empty, stop };
        assert_eq!(of("          0          0          5\n"), listed(true, 0));
        let entry = "         10          0          0          0          1          0\n";
        let last = "          1          6          0\n";
        assert_eq!(of(&[entry, last].concat()), listed(false, 6));
        for other in ["", entry, last, "x", &[entry, entry, last].concat()] {
            assert_eq!(of(other), Printed::Other);
        }
    }

    /// A program that prints what it reads: `cat`.
    #[test]
    fn another_program_differs() {
        let mut films = Films::new("cat".into(), |_| {});
        films.all(1, 5).unwrap();
        assert_eq!(films.films(), films::limits().len() as u64 + 20);
        assert_eq!(films.differences(), films.films());
    }

    #[test]
    fn no_program() {
        let mut films = Films::new("no such program".into(), |_| {});
        assert!(films.all(1, 1).is_err());
    }

    /// The wrapper writes the same films.
    #[test]
    fn films_of_the_wrapper() {
        for seed in 0..50 {
            let sheet = random::tree(seed, 9);
            assert_eq!(films::film(&sheet), reedsander::film(&sheet.0, &sheet.1));
        }
    }
}
