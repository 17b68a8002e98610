//! Writes the stored answers of the Rust reference for the text leaves, the
//! inline walk and whole checks, and of a plain reading of document 01 for the
//! refusals, the setting machine and the listing program, of Reedsander, the checker of grade notes:
//! `vectors CRATES`. The files go to the data of the program in that folder
//! that replays them.
//!
//! The text files `utf8`, `white`, `lines`, `names`, `tags` and `pipes` hold records
//! of a length n (1 byte), a mask (2 bytes), answers (2 bytes) and n bytes of
//! text. Bit k of the mask says that function k is to be compared, and bit k
//! of the answers is what it answers; see `leaves` for the functions. The
//! files `pairs`, `punctuation`, `parts`, `sheets` and `inlines` are described
//! in `files`.
//!
//! The file `checks` holds records of six counts (2 bytes each): words of the
//! sheet, bytes of the text, words of the list, words of the report, marks
//! that are written, marks; then the check's answer and the setting machine's
//! (8 bytes each), the sheet's words (4 bytes each), the text, the list's words
//! and the marks that are written (4 bytes each). Before the calls every word
//! of the report and every mark is `files::BEFORE`, A5A5A5A5 hexadecimal.
//! Behind them the report's first words are the list, and all others are as
//! before; so with the marks. A refusal writes nothing, so its whole report, or
//! its marks, are as before. A sheet has at most 64 records (768 words), a text
//! 256 bytes, a report 512 words, and there are at most 72 marks: a record's
//! first 28 bytes say how many follow, at most 5,632.
//!
//! The files `long_checks` and `long_sets` hold cases of the function (0 the
//! check, 1 the setting machine), words of the sheet, bytes of the text, words lent to be written
//! into, and how many bytes of those are 0 behind the call (4 bytes each); then
//! the answer (8 bytes). The sheet is as many words of thematic breaks at level
//! 1, the text as many zeros. Every word lent is `files::BEFORE` before the
//! call, and those past what is written behind it too.
//!
//! The file `films` holds films, as the listing program reads them: how many
//! bytes the film has and how many are printed for it (4 bytes each), the film,
//! what is printed. A film has at most 84,504 bytes. Every byte of the output is
//! A5 hexadecimal before, and those past what is printed behind too. All numbers
//! are little-endian.

#![forbid(unsafe_code)]

mod checks;
mod files;
mod films;
mod inlines;
mod leaves;
mod limits;
mod sample;
mod sheets;
mod texts;

use std::{env, fs, path::Path, process::ExitCode};

fn main() -> ExitCode {
    let arguments: Vec<_> = env::args_os().skip(1).collect();
    let [folder] = &arguments[..] else {
        eprintln!("usage: vectors CRATES");
        return ExitCode::FAILURE;
    };
    match write(Path::new(folder)) {
        Ok(()) => ExitCode::SUCCESS,
        Err(error) => {
            eprintln!("vectors: {}: {error}", Path::new(folder).display());
            ExitCode::FAILURE
        }
    }
}

/// The program that replays the files.
const PROGRAM: &str = "replay";

/// Writes every file into the data of the program, and prints a line for each, and under it
/// a line for each rule of its reports.
fn write(crates: &Path) -> std::io::Result<()> {
    let folder = crates.join(PROGRAM).join("data");
    fs::create_dir_all(&folder)?;
    for file in files::all() {
        assert!(file.bytes.len() <= file.longest(), "{} is long", file.name);
        fs::write(folder.join(file.name), &file.bytes)?;
        println!(
            "{:<12} {:>7} records {:>8} bytes",
            file.name,
            file.records,
            file.bytes.len()
        );
        for (rule, count) in file.entries {
            println!("{:<12} {count:>7} entries of rule {rule}", "");
        }
    }
    Ok(())
}
