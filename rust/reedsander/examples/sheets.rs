//! Writes three small sheets in the format that the listing program reads,
//! and prints for each what the check finds and where the setting machine
//! stops: `sheets FOLDER`.

#![forbid(unsafe_code)]

mod notes;

use std::{env, fs, path::Path, process::ExitCode};

use reedsander::{film, Sheet};

fn main() -> ExitCode {
    let arguments: Vec<_> = env::args_os().skip(1).collect();
    let [folder] = &arguments[..] else {
        eprintln!("usage: sheets FOLDER");
        return ExitCode::from(2);
    };
    let folder = Path::new(folder);
    for (name, sheet) in notes::all() {
        let bytes = film(sheet.words(), sheet.text());
        if let Err(error) = fs::write(folder.join(name), bytes) {
            eprintln!("sheets: {}: {error}", folder.join(name).display());
            return ExitCode::FAILURE;
        }
        println!("{name}: {} records", sheet.records());
        print(&sheet);
    }
    ExitCode::SUCCESS
}

/// A line for each entry, and one for the machine.
fn print(sheet: &Sheet) {
    match sheet.check() {
        Ok(report) if report.is_empty() => println!("nothing to report"),
        Ok(report) => print!("{report}"),
        Err(refusal) => println!("refused: {refusal}"),
    }
    match sheet.set() {
        Ok((setting, _)) => println!("setting machine: {setting}\n"),
        Err(refusal) => println!("setting machine: refused: {refusal}\n"),
    }
}
