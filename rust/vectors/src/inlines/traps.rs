//! Paragraphs for what is easily got wrong, rule by rule.

use cases::{
    draft::Draft,
    letters::{self, breaks, containers, emphases, Letter, Tree},
};

use super::Case;

/// A paragraph's inlines.
type Inlines = Vec<Tree>;

fn x() -> Tree {
    letters::text("x").alone()
}

fn empty() -> Tree {
    letters::text("").alone()
}

fn text(value: &str) -> Tree {
    letters::text(value).alone()
}

fn link() -> Letter {
    letters::link(0, "x")
}

fn autolink() -> Tree {
    letters::autolink("x").alone()
}

/// Paragraphs of at most `count` of these each.
fn chunks(trees: Inlines, count: usize) -> Vec<Inlines> {
    trees.chunks(count).map(<[Tree]>::to_vec).collect()
}

/// Rule 30 tests the last child of some containers and not of others. What
/// stands before an empty text is not the last.
fn final_breaks() -> Vec<Inlines> {
    let mut all = Vec::new();
    let mut not_last = Vec::new();
    for node in breaks() {
        let last = |letter: &Letter| letter.under([x(), node.alone()]);
        all.push(containers().iter().map(last).collect());
        all.push(vec![x(), node.alone()]);
        all.push(vec![node.alone()]);
        all.push(vec![x(), node.alone(), empty()]);
        not_last.push(letters::strong(1).under([x(), node.alone(), empty()]));
        not_last.push(letters::delete().under([x(), node.alone(), empty()]));
    }
    all.push(not_last);
    all
}

/// Rule 37 asks for siblings, and does not pass over empty texts.
fn breaks_after_breaks() -> Vec<Inlines> {
    let (mut beside, mut parted) = (vec![x()], vec![x()]);
    let mut all = Vec::new();
    for left in breaks() {
        let mut inside = vec![x()];
        for right in breaks() {
            let [left, right] = [left.alone(), right.alone()];
            beside.extend([left.clone(), right.clone(), x()]);
            parted.extend([left.clone(), empty(), right.clone(), x()]);
            let ends = letters::mark().under([x(), left.clone()]);
            let starts = link().under([right.clone(), x()]);
            inside.extend([ends, right, x(), left, starts, x()]);
        }
        all.push(inside);
    }
    let [soft, spaces] = [letters::soft().alone(), letters::hard(1).alone()];
    let pair = |letter: &Letter| letter.under([soft.clone(), spaces.clone(), x()]);
    all.push(containers().iter().map(pair).collect());
    all.extend([beside, parted]);
    all
}

/// Rule 38 asks for siblings too.
fn strikethroughs() -> Vec<Inlines> {
    let node = || letters::delete().under([x()]);
    let pair = |letter: &Letter| letter.under([node(), node()]);
    let marks = || letters::mark().under([x()]);
    vec![
        vec![node(), node(), node()],
        vec![node(), empty(), node(), x(), node(), node()],
        vec![marks(), marks(), node(), marks(), node()],
        vec![letters::mark().under([node()]), node()],
        vec![node(), letters::mark().under([node(), x()])],
        containers().iter().map(pair).collect(),
    ]
}

/// Rule 39 passes over empty texts, and over nothing else.
fn empty_emphasis() -> Vec<Inlines> {
    let mut all = Vec::new();
    for letter in emphases().into_iter().skip(2) {
        all.push(vec![
            letter.alone(),
            x(),
            letter.under([empty()]),
            x(),
            letter.under([empty(), empty()]),
            x(),
            letter.under([letters::character_reference().alone()]),
            x(),
            letter.under([empty(), letters::code("").alone(), empty()]),
        ]);
    }
    all.push(containers().iter().skip(6).map(Letter::alone).collect());
    all
}

/// White space as document 01 has it, and scalar values beside it.
fn white_and_near() -> (Vec<char>, Vec<char>) {
    let list = "\u{9}\u{a}\u{b}\u{c}\u{d}\u{20}\u{85}\u{a0}\u{1680}\u{2000}\u{2001}\u{2002}\
                \u{2003}\u{2004}\u{2005}\u{2006}\u{2007}\u{2008}\u{2009}\u{200a}\u{2028}\u{2029}\
                \u{202f}\u{205f}\u{3000}";
    let near = "\u{0}\u{8}\u{e}\u{1f}!\u{84}\u{86}\u{9f}\u{a1}\u{167f}\u{1681}\u{180e}\u{1fff}\
                \u{200b}\u{2027}\u{202a}\u{2030}\u{205e}\u{2060}\u{2fff}\u{3001}\u{feff}\u{10000}";
    (list.chars().collect(), near.chars().collect())
}

/// Rule 40: the first and the last scalar value of a text.
fn white_edges() -> Vec<Inlines> {
    let (white, near) = white_and_near();
    let letters = emphases();
    let mut trees = Vec::new();
    for (index, scalar) in white.into_iter().chain(near).enumerate() {
        let letter = &letters[index % letters.len()];
        trees.push(letter.under([text(&format!("{scalar}x"))]));
        trees.push(letter.under([text(&format!("x{scalar}"))]));
    }
    chunks(trees, 16)
}

/// Rule 40 passes over empty texts at both ends; a backslash break at the
/// start passes and one at the end does not.
fn white_shapes() -> Vec<Inlines> {
    let code = || letters::code(" ").alone();
    let mut shapes = vec![
        vec![empty(), text(" x"), empty()],
        vec![empty(), text("x "), empty()],
        vec![x(), text(" "), empty()],
        vec![empty(), x(), text(" x")],
        vec![text("x "), x()],
        vec![code(), x(), code()],
        vec![letters::mark().under([text(" x "), x()]), x()],
    ];
    for node in breaks() {
        shapes.push(vec![empty(), node.alone(), x()]);
        shapes.push(vec![x(), node.alone(), empty()]);
    }
    let of_letter = |letter: Letter| {
        let trees = shapes.iter().map(|shape| letter.under(shape.clone()));
        trees.collect()
    };
    [letters::emphasis(1), letters::delete()]
        .map(of_letter)
        .into()
}

/// Rule 41: an only child, whatever else is in it; an empty text beside it
/// makes it not the only one.
fn joined() -> Vec<Inlines> {
    let mut all = Vec::new();
    let mut parted = Vec::new();
    for outer in emphases() {
        let mut paragraph = Vec::new();
        for inner in emphases() {
            paragraph.extend([outer.under([inner.under([x()])]), x()]);
        }
        all.push(paragraph);
        let inner = outer.under([x()]);
        parted.extend([outer.under([inner.clone(), empty()]), x()]);
        parted.extend([outer.under([empty(), inner.clone()]), x()]);
    }
    all.extend(chunks(parted, 12));
    all
}

/// Rule 42 reports each link inside once, and looks into none that it found.
fn links() -> Vec<Inlines> {
    let reference = letters::link_reference("x", "");
    let inner = [
        link().under([x()]),
        autolink(),
        reference.under([x()]),
        letters::wikilink("x", "").alone(),
        letters::image(1, "").under([autolink()]),
        letters::image_reference("x", "").under([x(), autolink()]),
        letters::footnote_reference("x", "").alone(),
    ];
    let mark = letters::mark();
    let both = |outer: &Letter| {
        let direct = inner.iter().map(|tree| outer.under([tree.clone()]));
        let deeper = inner
            .iter()
            .map(|tree| outer.under([mark.under([tree.clone()])]));
        direct.chain(deeper).collect()
    };
    vec![
        both(&link()),
        both(&reference),
        containers()
            .iter()
            .map(|letter| link().under([letter.under([autolink()])]))
            .collect(),
        containers()
            .iter()
            .map(|letter| letter.under([autolink()]))
            .collect(),
    ]
}

/// Rule 42 goes on behind a link that it found, and each link asks again.
fn links_in_links() -> Vec<Inlines> {
    let link = link();
    let mark = letters::mark();
    let image = letters::image(1, "");
    let reference = letters::link_reference("", "");
    let wikilink = || letters::wikilink("", "").alone();
    vec![
        vec![link.under([link.under([link.under([x()])])])],
        vec![link.under([image.under([link.under([image.under([link.alone()])])])])],
        vec![
            link.under([
                link.under([autolink(), x()]),
                mark.under([wikilink(), x()]),
                autolink(),
                x(),
            ]),
            autolink(),
            x(),
        ],
        vec![reference.under([
            mark.under([
                mark.under([link.under([autolink()]), autolink()]),
                autolink(),
            ]),
            wikilink(),
        ])],
        vec![image.under([link.under([reference.under([autolink()])]), autolink()])],
    ]
}

/// Rule 25 of links and images, 32 to 36: empty or not, and not trimmed. A
/// second text is not looked at.
fn places() -> Vec<Inlines> {
    let mut destinations = Vec::new();
    let mut references = Vec::new();
    for first in ["", "x", " "] {
        for kind in 0..3 {
            destinations.push(letters::link(kind, first).under([x()]));
            destinations.push(letters::image(kind, first).alone());
        }
        for second in ["", "x"] {
            references.push(letters::link_reference(first, second).alone());
            references.push(letters::image_reference(first, second).alone());
            references.push(letters::footnote_reference(first, second).alone());
            references.push(letters::wikilink(first, second).alone());
        }
    }
    let note = letters::inline_footnote();
    let notes = vec![
        note.alone(),
        note.under([empty()]),
        note.under([note.alone()]),
        note.under([empty(), letters::hard(0).alone()]),
    ];
    vec![destinations, references, notes]
}

/// Rule 43 at every border of ASCII punctuation, and far from it.
fn escapes() -> Vec<Inlines> {
    let scalars = "\u{0}\t\n \u{1f}!/09:@AZ[`az{~\u{7f}\u{80}\u{a1}\u{bf}\u{d7}\u{2010}\u{2018}\
                   \u{d7ff}\u{e000}\u{ff01}\u{10000}\u{10ffff}";
    vec![scalars
        .chars()
        .map(|scalar| letters::escape(scalar).alone())
        .collect()]
}

/// Rules 31, 44, 45 and 56: what is a line ending and what is not. Raw HTML
/// and autolinks may hold one; none of these values is a tag name.
fn values() -> Vec<Inlines> {
    let values = [
        "",
        "\n",
        "\r",
        "\r\n",
        "a\nb",
        "a\r",
        "\nb",
        "\u{85}",
        "\u{2028}",
        "\u{b}\u{c}",
        " ",
    ];
    let sorts = [
        letters::text,
        letters::code,
        letters::html,
        letters::autolink,
        letters::tag,
    ];
    let of_sort = |sort: fn(&str) -> Letter| values.iter().map(move |value| sort(value).alone());
    sorts.map(|sort| of_sort(sort).collect()).into()
}

/// Rules 46 to 48: 47 for dollars alone, 48 for the code form alone.
fn maths() -> Vec<Inlines> {
    let values = [
        "", "x", "`$", "`", "$", "$`", "``$", "` $", "a`$b", "`x$", "\n",
    ];
    let mut trees = Vec::new();
    for value in values {
        for dollars in [0, 1, 255] {
            trees.push(letters::dollars(dollars, value).alone());
        }
        trees.push(letters::code_math(value).alone());
    }
    chunks(trees, 22)
}

/// Rules 54 and 55: the name, each attribute, then what the label holds.
fn directives() -> Vec<Inlines> {
    let names = [
        "a", "Z", "a-b", "ab-CD-e", "", "-", "a-", "-a", "a--b", "a1", "a_b", "é", "a b", "aé",
        "@", "[", "`", "{",
    ];
    let attributes = [
        "a", "_", "-", "a1", "_:", "Z-z", "--", "", "1", ":a", "a b", "é", "aé", "a=", "@", "a[",
        "a/", "a;", "`", "a{", " a", "a\n",
    ];
    let directive = letters::directive;
    let attribute = |name: &&str| letters::attribute(name).alone();
    let [soft, hard] = [letters::soft().alone(), letters::hard(0).alone()];
    let bad = || letters::attribute("").alone();
    vec![
        names.iter().map(|name| directive(name).alone()).collect(),
        vec![directive("a").under(attributes.iter().map(attribute))],
        vec![directive("").under([bad(), attribute(&"a"), bad(), x(), hard.clone()])],
        vec![directive("a").under([bad(), soft.clone(), soft.clone(), text("\n")])],
        vec![directive("").under([
            bad(),
            directive("-").under([bad(), directive("").alone()]),
            hard,
        ])],
        vec![letters::mark().under([directive("a").under([attribute(&"a"), text(" ")])])],
        vec![
            link().under([directive("a").under([bad(), autolink()])]),
            soft,
        ],
    ]
}

/// Long texts whose last byte, or last two, decide.
fn long_texts() -> Vec<Inlines> {
    let run = |count: usize, end: &str| "x".repeat(count) + end;
    let name = "ab-".repeat(80);
    vec![
        vec![
            text(&run(300, "\r")),
            text(&run(300, "")),
            letters::code(&run(200, "é\n")).alone(),
            letters::code_math(&run(250, "`$")).alone(),
            letters::code_math(&run(250, "`")).alone(),
        ],
        vec![
            letters::mark().under([text(&run(300, "\u{3000}"))]),
            letters::mark().under([text(&run(300, ""))]),
            letters::directive(&name).alone(),
            letters::directive(&name[..239]).alone(),
            letters::directive("a").under([
                letters::attribute(&run(250, ":")).alone(),
                letters::attribute(&run(250, "é")).alone(),
            ]),
        ],
    ]
}

/// Nothing to report: kinds without a rule of their own, and others with
/// values that pass; and no inline at all.
fn silent() -> Vec<Inlines> {
    let kinds = [
        letters::character_reference(),
        letters::shortcode(),
        letters::html(""),
        letters::autolink(""),
        letters::tag("a"),
        letters::escape('*'),
        letters::text(""),
        letters::code(" "),
        letters::soft(),
    ];
    let mut all = vec![vec![], vec![empty()], vec![empty(), empty()], vec![x()]];
    all.push(kinds.iter().map(Letter::alone).collect());
    all.extend(kinds.iter().map(|letter| vec![letter.alone()]));
    all
}

/// These letters, each under the one before, as often as fits, down to
/// `leaf` at level 64.
fn chain(letters: &[Letter], leaf: Tree) -> Inlines {
    let mut tree = leaf;
    for level in (2..64).rev() {
        tree = letters[level % letters.len()].under([tree]);
    }
    vec![tree]
}

/// Levels down to 64.
fn chains() -> Vec<Inlines> {
    vec![
        chain(&[letters::emphasis(0)], empty()),
        chain(&[link(), letters::image(0, "")], autolink()),
        chain(&containers(), letters::hard(1).alone()),
        chain(&[letters::directive("a")], letters::attribute("").alone()),
    ]
}

/// Every case, in a fixed order.
pub fn all() -> Vec<Case> {
    let paragraphs = [
        silent(),
        final_breaks(),
        breaks_after_breaks(),
        strikethroughs(),
        empty_emphasis(),
        white_edges(),
        white_shapes(),
        joined(),
        links(),
        links_in_links(),
        places(),
        escapes(),
        values(),
        maths(),
        directives(),
        long_texts(),
        chains(),
    ];
    let cases = paragraphs.concat().into_iter().enumerate();
    cases
        .map(|(seed, inlines)| {
            let mut draft = Draft::paragraph(seed as u64);
            draft.add_trees(2, &inlines);
            Case::new(draft.done())
        })
        .collect()
}
