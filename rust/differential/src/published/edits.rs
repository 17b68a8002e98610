//! Sheets with one record taken out, copied or moved.

use cases::{Numbers, RECORD_WORDS};

/// So many records of a sheet are edited that, for one edit of each, all the
/// edited sheets together have about this number of records: so a large sheet
/// has few of its records edited, and a small one all.
const MOST_RECORDS: usize = 20_000;

/// How many records of a sheet are edited at most.
const MOST_EDITED: usize = 40;

/// What is done to a record.
#[derive(Clone, Copy, PartialEq, Eq, Debug)]
enum Edit {
    TakenOut,
    Copied,
    Moved,
}

/// Calls `see` with each edited sheet and what was done. Each edit is done to
/// the record alone and, where something stands under it, to all of that too.
/// What is copied or moved comes before any record or to the end, and keeps
/// its level or gets that of the record there.
pub fn edits(numbers: &mut Numbers, words: &[u32], mut see: impl FnMut(&str, &[u32])) {
    let records: Vec<&[u32]> = words.chunks(RECORD_WORDS).collect();
    for record in chosen(numbers, records.len()) {
        let whole = end(&records, record);
        let ends = [
            Some(record + 1),
            Some(whole).filter(|&whole| whole > record + 1),
        ];
        for end in ends.into_iter().flatten() {
            for edit in [Edit::TakenOut, Edit::Copied, Edit::Moved] {
                let edited = edited(numbers, &records, record, end, edit);
                see(
                    &format!("records {record} to {} {edit:?}", end - 1),
                    &edited,
                );
            }
        }
    }
}

/// The records that are edited: all of them, or some.
fn chosen(numbers: &mut Numbers, records: usize) -> Vec<usize> {
    let many = (MOST_RECORDS / records.max(1)).clamp(1, MOST_EDITED);
    match records <= many {
        true => (0..records).collect(),
        false => (0..many).map(|_| numbers.index(records)).collect(),
    }
}

/// Where the record and what is under it ends.
fn end(records: &[&[u32]], record: usize) -> usize {
    let level = records[record][1];
    let under = records[record + 1..]
        .iter()
        .take_while(|under| under[1] > level);
    record + 1 + under.count()
}

fn edited(
    numbers: &mut Numbers,
    records: &[&[u32]],
    start: usize,
    end: usize,
    edit: Edit,
) -> Vec<u32> {
    let piece = &records[start..end];
    let rest: Vec<&[u32]> = match edit {
        Edit::TakenOut | Edit::Moved => [&records[..start], &records[end..]].concat(),
        Edit::Copied => records.to_vec(),
    };
    if edit == Edit::TakenOut {
        return rest.concat();
    }
    let place = numbers.index(rest.len() + 1);
    let level = rest
        .get(place)
        .map(|there| there[1])
        .filter(|_| numbers.once_in(2));
    let mut piece = piece.concat();
    if let Some(level) = level {
        let first = piece[1];
        for record in piece.chunks_mut(RECORD_WORDS) {
            record[1] = record[1] - first + level;
        }
    }
    let before = rest[..place].concat();
    [before, piece, rest[place..].concat()].concat()
}

#[cfg(test)]
mod tests {
    use super::*;
    use cases::plain;
    use std::collections::BTreeSet;

    fn kinds(words: &[u32]) -> Vec<u32> {
        words.chunks(RECORD_WORDS).map(|record| record[0]).collect()
    }

    /// Every edit of a small sheet: how many, and what each leaves.
    #[test]
    fn small() {
        // A quote with a break and a paragraph of a text, and a break.
        let sheet = [
            plain(4, 1),
            plain(3, 2),
            plain(1, 2),
            plain(46, 3),
            plain(3, 1),
        ]
        .concat();
        let before = kinds(&sheet);
        let mut names = Vec::new();
        edits(&mut Numbers::new(1), &sheet, |name, words| {
            let after = kinds(words);
            let (many, edit) = name.rsplit_once(' ').unwrap();
            let piece = match many {
                "records 0 to 3" => 4,
                "records 2 to 3" => 2,
                _ => 1,
            };
            let wanted = match edit {
                "TakenOut" => before.len() - piece,
                "Copied" => before.len() + piece,
                _ => before.len(),
            };
            assert_eq!(after.len(), wanted, "{name}");
            let mut sorted = [before.clone(), after].map(|mut kinds| {
                kinds.sort_unstable();
                kinds
            });
            assert_eq!(edit == "Moved", sorted[0] == sorted[1], "{name}");
            sorted[1].dedup();
            names.push(name.to_string());
        });
        assert_eq!(names.len(), 7 * 3, "{names:?}");
        assert_eq!(names[3], "records 0 to 3 TakenOut");
        edits(&mut Numbers::new(1), &[], |name, _| panic!("{name}"));
    }

    #[test]
    fn taken_out() {
        let sheet = [plain(4, 1), plain(3, 2), plain(17, 1)].concat();
        let mut found = Vec::new();
        edits(&mut Numbers::new(1), &sheet, |_, words| {
            found.push(words.to_vec())
        });
        assert_eq!(found[0], [plain(3, 2), plain(17, 1)].concat());
        assert_eq!(found[3], plain(17, 1));
    }

    /// A paragraph in a quote is moved with its text under it: it keeps its
    /// level, or it gets that of the quote.
    #[test]
    fn levels() {
        let sheet = [plain(4, 1), plain(1, 2), plain(46, 3), plain(3, 1)].concat();
        let mut seen = BTreeSet::new();
        for seed in 0..50 {
            edits(&mut Numbers::new(seed), &sheet, |name, words| {
                if name == "records 1 to 2 Moved" {
                    let at = kinds(words).iter().position(|&kind| kind == 1).unwrap();
                    let moved = &words[at * RECORD_WORDS..];
                    let level = moved[1];
                    assert_eq!(moved[RECORD_WORDS..][..2], [46, level + 1]);
                    seen.insert(level);
                }
            });
        }
        assert!(seen.into_iter().eq([1, 2]));
    }

    /// Large sheets have few edits, and other seeds others.
    #[test]
    fn large() {
        let sheet: Vec<u32> = (0..5000).flat_map(|_| plain(3, 1)).collect();
        let chosen = |seed| chosen(&mut Numbers::new(seed), 5000);
        assert_eq!((chosen(1).len(), chosen(1) == chosen(2)), (4, false));
        let mut many = 0;
        edits(&mut Numbers::new(1), &sheet, |_, _| many += 1);
        assert_eq!(many, 12);
    }
}
