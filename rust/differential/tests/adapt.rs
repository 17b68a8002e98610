//! `adapt!` on the reference's own tree: from sheets to documents and back.

use std::thread;

use cases::{damage, random, Numbers, RECORD_WORDS};
use differential::notes::{Node, Notes, Page};
use oracle::{ast::*, span::Span};
use reedsander::{Refusal, Rule, Setting, Sheet};

/// The oracle gives a table at most so many alignments.
const MOST_ALIGNMENTS: u32 = 65_536;

/// A record but for where its texts start: its other words, and the texts.
fn record<'t>(words: &[u32], text: &'t [u8]) -> ([u32; 8], [&'t [u8]; 2]) {
    let mut front: [u32; 8] = words[..8].try_into().unwrap();
    if front[0] == 12 {
        front[5] = front[5].min(MOST_ALIGNMENTS);
    }
    let part = |at: usize| &text[words[at] as usize..][..words[at + 1] as usize];
    (front, [part(8), part(10)])
}

/// All records of a sheet.
fn records<'t>(words: &[u32], text: &'t [u8]) -> Vec<([u32; 8], [&'t [u8]; 2])> {
    let records = words.chunks(RECORD_WORDS);
    records.map(|words| record(words, text)).collect()
}

/// The random tree of a seed; every third with something done to it.
fn sheet(seed: u64) -> cases::Sheet {
    let size = 3 + (seed % 41) as usize;
    let sheet = match seed % 4 {
        0 => random::deep(seed, size),
        _ => random::tree(seed, size),
    };
    match seed % 3 {
        0 => damage::damaged(&mut Numbers::new(!seed), sheet),
        _ => sheet,
    }
}

/// Calls `see` with sheets that are accepted, and says how many they were.
fn accepted(seeds: u64, see: impl Fn(u64, &[u32], &[u8])) -> u64 {
    let mut seen = 0;
    for seed in 0..seeds {
        let (words, text) = sheet(seed);
        if oracle::refusal(&words, &text).0 == 0 {
            see(seed, &words, &text);
            seen += 1;
        }
    }
    seen
}

/// Sheet, document, sheet: the same words, and the same bytes of each text.
#[test]
fn there_and_back() {
    let seen = accepted(20_000, |seed, words, text| {
        let document = oracle::document(words, text);
        let notes = Notes::of(&document);
        let made = records(notes.sheet().words(), notes.sheet().text());
        assert_eq!(made, records(words, text), "seed {seed}");
        assert_eq!(notes.nodes().len(), notes.sheet().records());
    });
    assert!(seen > 14_000, "{seen}");
}

/// The library's list of the document's sheet is validate.rs's list of the
/// document.
#[test]
fn lists() {
    let seen = accepted(2000, |seed, words, text| {
        let document = oracle::document(words, text);
        let report = Notes::of(&document).sheet().check().unwrap();
        let entries = report.entries().map(|entry| {
            let path: Vec<usize> = entry.path.iter().map(|&index| index as usize).collect();
            (entry.rule.number(), entry.span, path)
        });
        let kept = oracle::kept(&document)
            .into_iter()
            .map(|(rule, diagnostic)| {
                let span = diagnostic
                    .span
                    .map(|span| (span.start as u32, span.end as u32));
                (rule, span, diagnostic.path.unwrap().0)
            });
        assert!(entries.eq(kept), "seed {seed}");
    });
    assert!(seen > 1400, "{seen}");
}

/// The path of each record: one index for each block, item, row and cell down
/// to it, counted from the words. None for an inline, a tag or an attribute.
fn paths(words: &[u32]) -> Vec<Option<Vec<u32>>> {
    // How many there were so far at each level, under the same parent.
    let mut counts = [0_u32; 66];
    let mut path = Vec::new();
    let records = words.chunks(RECORD_WORDS).map(|record| {
        let (kind, level) = (record[0], record[1] as usize);
        path.truncate(level - 1);
        counts[level + 1] = 0;
        matches!(kind, 1..=17 | 20..=22).then(|| {
            path.push(counts[level]);
            counts[level] += 1;
            path.clone()
        })
    });
    records.collect()
}

/// The path of every node leads to it, and to no other that looks like it;
/// one index past the last child leads nowhere.
#[test]
fn every_path() {
    let seen = accepted(2000, |seed, words, text| {
        let document = oracle::document(words, text);
        let notes = Notes::of(&document);
        assert_eq!(notes.at(&[]), None);
        let mut last_under = std::collections::BTreeMap::new();
        for (record, path) in paths(words).into_iter().enumerate() {
            let node = notes.nodes()[record];
            assert_eq!(notes.node(record as u32), Some(node));
            let Some(path) = path else {
                assert!(matches!(
                    node,
                    Node::Inline(_) | Node::Tag(_) | Node::Attribute(_)
                ));
                continue;
            };
            assert_eq!(notes.at(&path), Some(node), "seed {seed}, record {record}");
            let same = notes.nodes().iter().filter(|&&other| other == node);
            assert_eq!(same.count(), 1, "seed {seed}, record {record}");
            last_under.entry(path.clone()).or_insert(0);
            let (last, parent) = path.split_last().unwrap();
            last_under.insert(parent.to_vec(), last + 1);
        }
        for (mut path, past) in last_under {
            path.push(past);
            assert_eq!(notes.at(&path), None, "seed {seed}, path {path:?}");
            *path.last_mut().unwrap() = u32::MAX;
            assert_eq!(notes.at(&path), None, "seed {seed}, path {path:?}");
        }
        let records = notes.sheet().records() as u32;
        assert_eq!((notes.node(records), notes.node(u32::MAX)), (None, None));
    });
    assert!(seen > 1400, "{seen}");
}

/// The page is set where validate.rs has nothing to say, with the marks of the
/// plain machine; otherwise it has an entry for each of its diagnostics.
#[test]
fn pages() {
    let seen = accepted(2000, |seed, words, text| {
        let document = oracle::document(words, text);
        let notes = Notes::of(&document);
        let kept = oracle::kept(&document);
        match notes.page().unwrap() {
            Page::Set(marked) => {
                assert!(kept.is_empty(), "seed {seed}");
                let (nodes, marks): (Vec<Node>, Vec<u32>) = marked.into_iter().unzip();
                assert_eq!(nodes, notes.nodes());
                assert_eq!(marks, oracle::Run::of(words, text).marks);
            }
            Page::Faulty(faults) => {
                assert!(!kept.is_empty(), "seed {seed}");
                assert_eq!(faults.len(), kept.len());
                for (fault, (rule, _)) in faults.iter().zip(kept) {
                    assert_eq!(fault.rule.number(), rule);
                    assert_eq!(notes.at(&fault.path), Some(fault.node));
                }
            }
        }
    });
    assert!(seen > 1400, "{seen}");
}

/// A list of one item, with a number.
fn numbered(ordered: bool, number: u64) -> Document {
    let paragraph = Paragraph::new([Text::new("x")]);
    let item = ListItem {
        number: Some(number),
        ..ListItem::new([paragraph])
    };
    let list = List {
        ordered,
        ..List::new([item])
    };
    Document::new(vec![list.into()])
}

/// The rules of a document's faults.
fn rules(document: &Document) -> Vec<u32> {
    match Notes::of(document).page().unwrap() {
        Page::Set(_) => vec![],
        Page::Faulty(faults) => faults.iter().map(|fault| fault.rule.number()).collect(),
    }
}

/// Numbers past a word are reported as validate.rs does, whatever their lower
/// 32 bits are.
#[test]
fn long_numbers() {
    for (number, faulty) in [
        (999_999_999, false),
        (1_000_000_000, true),
        (u32::MAX.into(), true),
        (1 << 32, true),
        (4_294_967_297, true),
        (u64::MAX, true),
    ] {
        let document = numbered(true, number);
        let kept: Vec<u32> = oracle::kept(&document).iter().map(|kept| kept.0).collect();
        assert_eq!(kept, if faulty { vec![50] } else { vec![] }, "{number}");
        assert_eq!(rules(&document), kept, "{number}");
        assert_eq!(rules(&numbered(false, number)), [49], "{number}");
        let notes = Notes::of(&document);
        let word = u32::try_from(number).unwrap_or(u32::MAX);
        assert_eq!(notes.sheet().words()[RECORD_WORDS + 7], word);
    }
}

/// A span past a word is shown as far as a word goes.
#[test]
fn long_spans() {
    let most = u32::MAX;
    for (start, end, words) in [
        (0, 0, (0, 0)),
        (3, most as usize, (3, most)),
        (most as usize + 1, 7, (most, 7)),
        (5, usize::MAX, (5, most)),
    ] {
        let mut heading = Heading::new(7, [Text::new("x")]);
        heading.meta.span = Some(Span::new(start, end));
        let document = Document::new(vec![heading.into()]);
        let Page::Faulty(faults) = Notes::of(&document).page().unwrap() else {
            panic!("a heading of depth 7");
        };
        let [fault] = &faults[..] else {
            panic!("{faults:?}");
        };
        assert_eq!((fault.rule, fault.span), (Rule::HEADING_DEPTH, Some(words)));
        assert_eq!(fault.node.span(), Some(words));
        let shown = format!(
            "rule 10 (heading depth) at 0, bytes {} to {}",
            words.0, words.1
        );
        assert_eq!(fault.to_string(), shown);
        assert_eq!(
            format!("{:?}", fault.node),
            format!("heading at {}..{}", words.0, words.1)
        );
    }
}

/// The text of a destination that is not written comes back too.
#[test]
fn omitted_destinations() {
    for text in ["", "reel-2"] {
        let link = Link {
            destination_kind: LinkDestinationKind::Omitted,
            ..Link::new(text, [Text::new("x")])
        };
        let document = Document::new(vec![Paragraph::new([link]).into()]);
        let notes = Notes::of(&document);
        let sheet = notes.sheet();
        let back = oracle::document(sheet.words(), sheet.text());
        assert_eq!(back, document);
        assert_eq!(rules(&document), []);
    }
}

/// A document of quotes, each in the one before.
fn quotes(many: usize) -> Document {
    let mut blocks = Vec::new();
    for _ in 0..many {
        let meta = NodeMeta::default();
        let children = blocks;
        blocks = vec![BlockQuote { meta, children }.into()];
    }
    Document::new(blocks)
}

/// Drops it quote by quote: what the tree's own crate does recurses.
fn taken_apart(document: Document) {
    let mut blocks = document.children;
    while let Some(Block::BlockQuote(mut quote)) = blocks.pop() {
        blocks = std::mem::take(&mut quote.children);
    }
}

/// Deep trees on a stack of 256 KiB: the sheet has every record, and is
/// refused for its size first, and for its depth then.
#[test]
fn deep_trees() {
    fn deep() {
        for (many, refusal) in [
            (100_000, Refusal::LongSheet),
            (65_535, Refusal::BadLevel { record: 64 }),
            (65, Refusal::BadLevel { record: 64 }),
        ] {
            let document = quotes(many);
            let notes = Notes::of(&document);
            assert_eq!(notes.sheet().records(), many);
            assert_eq!(notes.at(&vec![0; many]), notes.nodes().last().copied());
            assert_eq!(notes.at(&vec![0; many + 1]), None);
            let refused = notes.page().unwrap_err();
            assert_eq!(refused.refusal, refusal);
            let node = refusal
                .record()
                .and_then(|record| notes.at(&vec![0; record as usize + 1]));
            assert_eq!(refused.node, node);
            assert_eq!(refused.to_string(), refusal.to_string());
            taken_apart(document);
        }
        let document = quotes(64);
        assert!(matches!(Notes::of(&document).page(), Ok(Page::Set(marked)) if marked.len() == 64));
    }
    let thread = thread::Builder::new().stack_size(256 * 1024).spawn(deep);
    thread.unwrap().join().unwrap();
}

/// The text that is too long is refused, and no node is to blame.
#[test]
fn long_text() {
    let text = Text::new("x".repeat(16_777_217));
    let document = Document::new(vec![Paragraph::new([text]).into()]);
    let refused = Notes::of(&document).page().unwrap_err();
    assert_eq!((refused.refusal, refused.node), (Refusal::LongText, None));
}

/// Where the machine stops, the record's node is the one that is at fault.
#[test]
fn node_of_a_stop() {
    let headings = [1, 2, 7].map(|depth| Heading::new(depth, [Text::new("x")]).into());
    let document = Document::new(headings.into());
    let notes = Notes::of(&document);
    let (setting, _) = notes.sheet().set().unwrap();
    let Setting::Stopped { record, .. } = setting else {
        panic!("a heading of depth 7");
    };
    assert_eq!(notes.node(record), notes.at(&[2]));
    let (_, same) = setting.stop().unwrap();
    assert_eq!(notes.node(same), notes.node(record));
    assert_eq!(notes.node(-1), None);
    assert!(
        matches!(notes.node(record), Some(Node::Block(Block::Heading(heading))) if heading.depth == 7)
    );
    assert_eq!(notes.node(record).unwrap().name(), "heading");
    assert_eq!(notes.document(), &document);
}

/// The same tree, told by other paths.
mod other {
    /// From the root of the crates.
    pub mod absolute {
        reedsander::adapt!(::oracle::ast);
    }

    /// By a name in another module.
    pub mod relative {
        reedsander::adapt!(super::tree);
    }

    use oracle::ast as tree;
}

/// Every path to the tree gives the same sheet.
#[test]
fn other_paths() {
    let document = numbered(true, 7);
    let sheet = Notes::of(&document).into_sheet();
    assert_eq!(sheet.records(), 4);
    assert_eq!(other::absolute::Notes::of(&document).into_sheet(), sheet);
    assert_eq!(other::relative::Notes::of(&document).into_sheet(), sheet);
}

/// Two nodes are the same where they are the same place, and not where they
/// look alike.
#[test]
fn nodes_alike() {
    let blocks = [1, 1].map(|depth| Heading::new(depth, [Text::new("x")]).into());
    let document = Document::new(blocks.into());
    let [first, second] = [0, 1].map(|index| Notes::of(&document).at(&[index]).unwrap());
    assert_eq!(document.children[0], document.children[1]);
    assert_ne!(first, second);
    assert_eq!(Notes::of(&document).at(&[0]), Some(first));
    let copy = document.clone();
    assert_ne!(Notes::of(&copy).at(&[0]), Some(first));
    assert_eq!(format!("{first:?}"), "heading");
}

/// A document of nothing.
#[test]
fn nothing() {
    let document = Document::default();
    let notes = Notes::of(&document);
    assert_eq!(notes.page(), Ok(Page::Set(vec![])));
    assert_eq!(notes.into_sheet(), Sheet::default());
}
