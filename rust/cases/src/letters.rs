//! Records without level and span: one function a kind, with the words and
//! texts that document 01 gives it.

/// A record but for its level and span.
#[derive(Clone, PartialEq, Eq, Debug, Default)]
pub struct Letter {
    pub kind: u32,
    pub a: u32,
    pub b: u32,
    pub c: u32,
    /// None where the kind has no such text.
    pub first: Option<String>,
    pub second: Option<String>,
}

/// A record and what stands under it.
#[derive(Clone, Debug)]
pub struct Tree {
    pub letter: Letter,
    pub children: Vec<Tree>,
}

impl Letter {
    /// Whether inlines may stand under it.
    pub fn is_container(&self) -> bool {
        matches!(self.kind, 34..=37 | 40 | 42..=44 | 50 | 52)
    }

    /// The record with these under it.
    pub fn under(&self, children: impl IntoIterator<Item = Tree>) -> Tree {
        Tree {
            letter: self.clone(),
            children: children.into_iter().collect(),
        }
    }

    /// The record with nothing under it.
    pub fn alone(&self) -> Tree {
        self.under([])
    }
}

fn plain(kind: u32) -> Letter {
    Letter {
        kind,
        ..Letter::default()
    }
}

fn lettered(kind: u32, a: u32) -> Letter {
    Letter { a, ..plain(kind) }
}

fn named(kind: u32, first: &str) -> Letter {
    Letter {
        first: Some(first.into()),
        ..plain(kind)
    }
}

fn labelled(kind: u32, first: &str, second: &str) -> Letter {
    Letter {
        second: Some(second.into()),
        ..named(kind, first)
    }
}

// Blocks.

pub fn paragraph() -> Letter {
    plain(1)
}

pub fn heading(depth: u32) -> Letter {
    lettered(2, depth)
}

pub fn thematic_break() -> Letter {
    plain(3)
}

pub fn block_quote() -> Letter {
    plain(4)
}

pub fn alert(title: Option<&str>) -> Letter {
    Letter {
        first: title.map(Into::into),
        ..lettered(5, title.is_some().into())
    }
}

/// Ordered or not; delimiter 0 dash, 1 asterisk, 2 plus, 3 period, 4 paren;
/// tight or not.
pub fn list(ordered: u32, delimiter: u32, tight: u32) -> Letter {
    Letter {
        b: delimiter,
        c: tight,
        ..lettered(6, ordered)
    }
}

/// Code 0 fenced, 1 indented.
pub fn code_block(form: u32, info: Option<&str>, value: &str) -> Letter {
    Letter {
        a: form,
        b: info.is_some().into(),
        second: info.map(Into::into),
        ..named(7, value)
    }
}

pub fn html_block() -> Letter {
    plain(8)
}

/// Content 0 blocks, 1 inlines.
pub fn html_container(content: u32) -> Letter {
    lettered(9, content)
}

/// Destination 0 bare, 1 angle, 2 omitted.
pub fn definition(identifier: &str, kind: u32, destination: &str) -> Letter {
    Letter {
        a: kind,
        ..labelled(10, identifier, destination)
    }
}

pub fn footnote_definition(identifier: &str) -> Letter {
    named(11, identifier)
}

pub fn table(alignments: u32) -> Letter {
    lettered(12, alignments)
}

pub fn math_block() -> Letter {
    plain(13)
}

/// Frontmatter 0 YAML, 1 TOML.
pub fn frontmatter(kind: u32, value: &str) -> Letter {
    Letter {
        a: kind,
        ..named(14, value)
    }
}

pub fn leaf_directive(name: &str) -> Letter {
    named(15, name)
}

pub fn container_directive(name: &str) -> Letter {
    named(16, name)
}

pub fn blank_line() -> Letter {
    plain(17)
}

// What stands under blocks.

/// Checked 0 none, 1 false, 2 true.
pub fn item(checked: u32, number: Option<u32>) -> Letter {
    Letter {
        b: number.is_some().into(),
        c: number.unwrap_or(0),
        ..lettered(20, checked)
    }
}

pub fn row() -> Letter {
    plain(21)
}

pub fn cell() -> Letter {
    plain(22)
}

pub fn html_tag(name: &str, raw: &str) -> Letter {
    labelled(23, name, raw)
}

pub fn attribute(name: &str) -> Letter {
    named(24, name)
}

// Inlines.

pub fn text(value: &str) -> Letter {
    named(31, value)
}

pub fn escape(scalar: char) -> Letter {
    lettered(32, scalar.into())
}

pub fn character_reference() -> Letter {
    plain(33)
}

/// Delimiter 0 asterisk, 1 underscore.
pub fn emphasis(delimiter: u32) -> Letter {
    lettered(34, delimiter)
}

/// Delimiter 0 asterisk, 1 underscore.
pub fn strong(delimiter: u32) -> Letter {
    lettered(35, delimiter)
}

pub fn delete() -> Letter {
    plain(36)
}

pub fn mark() -> Letter {
    plain(37)
}

pub fn shortcode() -> Letter {
    plain(38)
}

pub fn code(value: &str) -> Letter {
    named(39, value)
}

/// Destination 0 bare, 1 angle, 2 omitted.
pub fn link(kind: u32, destination: &str) -> Letter {
    Letter {
        a: kind,
        ..named(40, destination)
    }
}

pub fn autolink(text: &str) -> Letter {
    named(41, text)
}

/// Destination 0 bare, 1 angle, 2 omitted.
pub fn image(kind: u32, destination: &str) -> Letter {
    Letter {
        a: kind,
        ..named(42, destination)
    }
}

pub fn link_reference(identifier: &str, label: &str) -> Letter {
    labelled(43, identifier, label)
}

pub fn image_reference(identifier: &str, label: &str) -> Letter {
    labelled(44, identifier, label)
}

pub fn html(value: &str) -> Letter {
    named(45, value)
}

pub fn soft() -> Letter {
    plain(46)
}

/// Line break 0 backslash, 1 spaces.
pub fn hard(kind: u32) -> Letter {
    lettered(47, kind)
}

/// Math in a fence of dollars.
pub fn dollars(dollars: u32, value: &str) -> Letter {
    Letter {
        b: dollars,
        ..named(48, value)
    }
}

/// Math in the code form.
pub fn code_math(value: &str) -> Letter {
    Letter {
        a: 1,
        ..named(48, value)
    }
}

pub fn footnote_reference(identifier: &str, label: &str) -> Letter {
    labelled(49, identifier, label)
}

pub fn inline_footnote() -> Letter {
    plain(50)
}

pub fn wikilink(target: &str, label: &str) -> Letter {
    labelled(51, target, label)
}

pub fn directive(name: &str) -> Letter {
    named(52, name)
}

pub fn tag(name: &str) -> Letter {
    named(53, name)
}

/// The three breaks.
pub fn breaks() -> [Letter; 3] {
    [soft(), hard(0), hard(1)]
}

/// The emphasis kinds, with each delimiter.
pub fn emphases() -> [Letter; 6] {
    [
        emphasis(0),
        emphasis(1),
        strong(0),
        strong(1),
        delete(),
        mark(),
    ]
}

/// Every kind that holds inlines, without a fault of its own.
pub fn containers() -> Vec<Letter> {
    let others = [
        link(0, "x"),
        image(0, "x"),
        link_reference("x", ""),
        image_reference("x", ""),
        inline_footnote(),
        directive("x"),
    ];
    emphases().into_iter().chain(others).collect()
}
