//! The files in examples/ at the repository's root.

use std::{collections::BTreeSet, fs, path::PathBuf};

use reedsander::{film, Rule, Setting, Stop};

#[path = "../examples/notes/mod.rs"]
mod notes;

fn folder() -> PathBuf {
    PathBuf::from(env!("CARGO_MANIFEST_DIR")).join("../../examples")
}

/// Each file is what the builder gives, and there is no other but the page
/// about them.
#[test]
fn files() {
    let names: BTreeSet<String> = fs::read_dir(folder())
        .unwrap()
        .map(|entry| entry.unwrap().file_name().into_string().unwrap())
        .collect();
    let sheets = notes::all();
    let wanted = sheets.iter().map(|(name, _)| name.to_string());
    let wanted: BTreeSet<String> = wanted.chain(["README.md".to_string()]).collect();
    assert_eq!(names, wanted);
    for (name, sheet) in &sheets {
        let file = fs::read(folder().join(name)).unwrap();
        assert_eq!(file, film(sheet.words(), sheet.text()), "{name}");
    }
}

/// What each sheet is an example of.
#[test]
fn findings() {
    let found = notes::all().map(|(name, sheet)| {
        let report = sheet.check().unwrap();
        let rules: Vec<Rule> = report.iter().map(|entry| entry.rule).collect();
        (name, rules, sheet.set().unwrap().0)
    });
    let [table, passes, faults] = found;
    assert_eq!(
        table,
        ("shot-table", vec![], Setting::Ended { records: 41 })
    );
    assert_eq!(passes, ("passes", vec![], Setting::Ended { records: 19 }));
    let stopped = Setting::Stopped {
        stop: Stop::HeadingDepth,
        record: 2,
    };
    let rules = [10, 20, 19, 49, 42, 2].map(|number| Rule::from_raw(number).unwrap());
    assert_eq!(faults, ("faults", rules.to_vec(), stopped));
}

/// The passes are numbered on from the fourth.
#[test]
fn marks_of_the_passes() {
    let [_, (_, passes), _] = notes::all();
    let marks = passes.set().unwrap().1;
    let marked: Vec<u32> = marks.into_iter().filter(|&mark| mark > 0).collect();
    assert_eq!(marked, [1, 2, 4, 5, 6]);
}
