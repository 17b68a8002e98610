//! Two documents, and the page of a document as it is printed.

use std::fmt::Write;

use oracle::{ast::*, span::Span};

/// The notes' own tree, adapted.
mod notes {
    reedsander::adapt!(oracle::ast);
}

use notes::{Fault, Node, Notes, Page};

/// The documents by name: the first has nothing wrong with it.
pub fn documents() -> [(&'static str, Document); 2] {
    let good = vec![
        heading(1, "Reel 2", 0..8),
        shots([["14", "26 25 29"], ["15", "27 25 28"]].map(|row| row.to_vec())),
        passes([Some(7), None], "timing"),
    ];
    let bad = vec![
        heading(9, "Reel 2", 0..16),
        shots([vec!["14", "26 25 29"], vec!["15"]]),
        passes([Some(4_294_967_297), None], ""),
    ];
    [
        ("Reel 2, first version", Document::new(good)),
        ("Reel 2, second version", Document::new(bad)),
    ]
}

fn text(value: &str) -> Text {
    Text::new(value)
}

fn heading(depth: u8, title: &str, bytes: std::ops::Range<usize>) -> Block {
    let mut heading = Heading::new(depth, [text(title)]);
    heading.meta.span = Some(Span::new(bytes.start, bytes.end));
    heading.into()
}

/// A table of shots and their printer lights.
fn shots(rows: [Vec<&str>; 2]) -> Block {
    let row = |cells: Vec<&str>| TableRow {
        meta: NodeMeta::default(),
        cells: cells
            .into_iter()
            .map(|cell| TableCell::new([text(cell)]))
            .collect(),
    };
    let head = row(vec!["shot", "printer lights"]);
    let table = Table {
        meta: NodeMeta::default(),
        alignments: vec![TableAlignment::None; 2],
        rows: std::iter::once(head).chain(rows.map(row)).collect(),
    };
    table.into()
}

/// Two numbered passes; the second is `last`.
fn passes(numbers: [Option<u64>; 2], last: &str) -> Block {
    let items = numbers.into_iter().zip(["density", last]);
    let items = items.map(|(number, pass)| ListItem {
        number,
        ..ListItem::new([Paragraph::new([text(pass)])])
    });
    let list = List {
        ordered: true,
        delimiter: ListDelimiter::Period,
        ..List::new(items)
    };
    list.into()
}

/// What a document's page is, for people: the mark of each heading, cell and
/// item, or a line for each fault.
pub fn page(document: &Document) -> String {
    match Notes::of(document).page() {
        Ok(Page::Set(marked)) => {
            let lines = marked
                .into_iter()
                .filter_map(|(node, mark)| set(node, mark));
            lines.collect()
        }
        Ok(Page::Faulty(faults)) => faults.iter().map(faulty).collect(),
        Err(refused) => match refused.node {
            Some(node) => format!("  refused: {refused}: {}\n", node.name()),
            None => format!("  refused: {refused}\n"),
        },
    }
}

/// The line of a node that is set; None for one whose mark says nothing.
fn set(node: Node<'_>, mark: u32) -> Option<String> {
    let (place, inlines) = match node {
        Node::Block(Block::Heading(heading)) => ("heading of depth", &heading.children),
        Node::Cell(cell) => ("cell in column", &cell.children),
        Node::Item(item) => match item.children.first() {
            Some(Block::Paragraph(paragraph)) => ("item", &paragraph.children),
            _ => return None,
        },
        Node::Block(_) | Node::Row(_) | Node::Tag(_) | Node::Attribute(_) | Node::Inline(_) => {
            return None
        }
    };
    Some(format!("  {place} {mark}: {}\n", words(inlines)))
}

/// The line of a fault, and what its node says.
fn faulty(fault: &Fault<'_>) -> String {
    let mut line = format!("  {fault}: {}", fault.node.name());
    let said = match fault.node {
        Node::Block(Block::Heading(heading)) => words(&heading.children),
        Node::Row(row) => row
            .cells
            .iter()
            .map(|cell| words(&cell.children))
            .collect::<Vec<_>>()
            .join(" | "),
        Node::Item(item) => match item.number {
            Some(number) => format!("numbered {number}"),
            None => String::new(),
        },
        Node::Block(_) | Node::Cell(_) | Node::Tag(_) | Node::Attribute(_) | Node::Inline(_) => {
            String::new()
        }
    };
    if !said.is_empty() {
        write!(line, ", \"{said}\"").expect("a string takes all");
    }
    line + "\n"
}

/// The texts among the inlines.
fn words(inlines: &[Inline]) -> String {
    let texts = inlines.iter().filter_map(|inline| match inline {
        Inline::Text(text) => Some(text.value.as_str()),
        _ => None,
    });
    texts.collect()
}
