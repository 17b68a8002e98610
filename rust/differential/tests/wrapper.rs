//! What the wrapper says beside the calls: its names and numbers, and the
//! records and blocks that paths lead to, held against the oracle.

#![forbid(unsafe_code)]

use std::{fs, path::Path};

use cases::random;
use oracle::{Run, KEPT, STOP_RULES};
use reedsander::{Kind, Rule, SheetRef, Stop};

/// Each rule stands in the header beside what the Rust reports for it.
#[test]
fn rules() {
    assert_eq!(Rule::ALL.len(), KEPT.len());
    let header = Path::new(env!("CARGO_MANIFEST_DIR")).join("../../include/reedsander.h");
    let header = fs::read_to_string(header).unwrap();
    for (rule, message) in Rule::ALL.iter().zip(KEPT) {
        let number = oracle::rule(message).unwrap();
        let lines = format!("    /* {message} */\n    REEDSANDER_RULE_{rule:?} = {number}");
        assert!(header.contains(&lines), "{lines}");
    }
}

#[test]
fn rules_of_stops() {
    assert_eq!(Stop::ALL.len(), STOP_RULES.len());
    for (stop, wanted) in Stop::ALL.iter().zip(STOP_RULES) {
        let rules = stop.rules().iter().map(|rule| rule.number());
        assert!(rules.eq(wanted.iter().copied()), "{stop}");
    }
}

/// Where the entries' paths lead, and the block of each stop.
#[test]
fn paths() {
    let (mut entries, mut stops) = (0, 0);
    for seed in 0..5000 {
        let (words, text) = random::tree(seed, 3 + (seed % 29) as usize);
        let sheet = SheetRef::new(&words, &text);
        let Ok(report) = sheet.check() else {
            continue;
        };
        let paths = sheet.paths();
        for entry in &report {
            let record = paths.record(entry.path).unwrap();
            assert!(sheet.kind(record).is_some_and(Kind::is_counted), "{seed}");
            assert_eq!(sheet.record_at(entry.path), Some(record), "{seed}");
            assert_eq!(paths.path(record).as_deref(), Some(entry.path), "{seed}");
            entries += 1;
        }
        let (setting, _) = sheet.set().unwrap();
        if let Some((stop, record)) = setting.stop() {
            let wanted = Run::of(&words, &text).stop.unwrap();
            assert_eq!((stop.number(), record), (wanted.number, wanted.record));
            assert_eq!(sheet.block_path(record), Some(wanted.path), "{seed}");
            stops += 1;
        }
    }
    assert!(entries > 5000 && stops > 1000, "{entries} {stops}");
}
