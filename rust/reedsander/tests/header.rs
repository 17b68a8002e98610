//! The header as C and C++ read it: its numbers are those of this crate, and
//! both functions can be called.

mod c;

use std::{collections::BTreeMap, fmt::Debug, fs};

use reedsander::{Kind, Refusal, Rule, Setting, Stop, RECORD_WORDS};

/// The header as C of 1999 and as C++ of 2011.
const COMPILERS: [(&[&str], &str); 2] = [
    (&["cc", "-std=c99", "-pedantic"], "c"),
    (&["c++", "-std=c++11", "-pedantic"], "cpp"),
];

fn header() -> String {
    fs::read_to_string(c::include().join("reedsander.h")).unwrap()
}

/// The names of the header's constants: those of macros with a value, and
/// those of enums.
fn names(header: &str) -> Vec<String> {
    let code = without_comments(header);
    let macros = code.lines().filter_map(|line| {
        let (name, _) = line.strip_prefix("#define ")?.split_once(' ')?;
        (!name.contains('(')).then_some(name)
    });
    let enums = code.split("enum {").skip(1).flat_map(|rest| {
        let constants = rest.split('}').next().unwrap_or_default();
        constants.split(',')
    });
    let of_enums = enums.filter_map(|constant| constant.split('=').next());
    macros
        .chain(of_enums)
        .map(|name| name.trim().to_string())
        .collect()
}

/// What stands outside of comments.
fn without_comments(code: &str) -> String {
    let mut parts = code.split("/*");
    let first = parts.next().unwrap_or_default();
    let others = parts.filter_map(|part| part.split_once("*/"));
    others.fold(first.to_string(), |code, (_, behind)| code + behind)
}

/// Name and number of each, as a compiler has them.
fn compiled(header: &str, compiler: &[&str], ending: &str) -> BTreeMap<String, u64> {
    let line = |name: &String| format!("    printf(\"{name} %ld\\n\", (long)({name}));\n");
    let lines: String = names(header).iter().map(line).collect();
    let source = format!(
        "#include \"reedsander.h\"\n#include <stdio.h>\nint main(void) {{\n{lines}    return 0;\n}}\n"
    );
    let printed = c::printed(compiler, &format!("constants.{ending}"), &source);
    let constant = |line: &str| {
        let (name, number) = line.split_once(' ').unwrap();
        (name.to_string(), number.parse().unwrap())
    };
    printed.lines().map(constant).collect()
}

/// `HtmlBlock` and `HTML_BLOCK { .. }` as `HTML_BLOCK`.
fn c_name(shown: &impl Debug) -> String {
    let shown = format!("{shown:?}");
    let name = shown.split(' ').next().unwrap();
    if name.to_uppercase() == name {
        return name.to_string();
    }
    let mut c_name = String::new();
    for letter in name.chars() {
        if letter.is_uppercase() && !c_name.is_empty() {
            c_name.push('_');
        }
        c_name.push(letter.to_ascii_uppercase());
    }
    c_name
}

/// Name and number of each constant, as this crate has them.
fn wanted() -> BTreeMap<String, u64> {
    let kinds = Kind::ALL
        .iter()
        .map(|kind| (format!("KIND_{}", c_name(kind)), kind.number()));
    let rules = Rule::ALL
        .iter()
        .map(|rule| (format!("RULE_{}", c_name(rule)), rule.number()));
    let stops = Stop::ALL
        .iter()
        .map(|stop| (format!("STOP_{}", c_name(stop)), stop.number()));
    let refusals = (1..).map_while(|number| Refusal::from_raw(number, 0));
    let refusals = refusals.map(|refusal| (c_name(&refusal), refusal.number()));
    let ended = u64::from(Setting::Ended { records: 0 });
    let others = [
        ("ACCEPTED", 0),
        ("END", ended),
        ("REFUSED", 256),
        ("RECORD_WORDS", RECORD_WORDS as u64),
    ];
    let others = others.map(|(name, number)| (name.to_string(), number));
    kinds
        .chain(rules)
        .chain(stops)
        .chain(refusals)
        .map(|(name, number)| (name, u64::from(number)))
        .chain(others)
        .map(|(name, number)| (format!("REEDSANDER_{name}"), number))
        .collect()
}

/// Nothing is missing on either side.
#[test]
fn constants() {
    let header = header();
    let wanted = wanted();
    assert_eq!(names(&header).len(), wanted.len(), "each name once");
    for (compiler, ending) in COMPILERS {
        let compiled = compiled(&header, compiler, ending);
        for (name, number) in &compiled {
            assert_eq!(wanted.get(name), Some(number), "{name} of the header");
        }
        for (name, number) in &wanted {
            assert_eq!(compiled.get(name), Some(number), "{name} of this crate");
        }
    }
}

/// What is taken for a constant.
#[test]
fn names_of_constants() {
    let header = "#ifndef REEDSANDER_H\n#define REEDSANDER_H\n/* REEDSANDER_NO = 1,\n enum { */\n\
        enum {\n    REEDSANDER_ONE = 1, /* one */\n    REEDSANDER_TWO = 2, REEDSANDER_THREE\n};\n\
        #define REEDSANDER_WORDS 12\n#define REEDSANDER_LOW(answer) (answer)\n\
        uint64_t reedsander_check(void);\nenum { REEDSANDER_FOUR = 4 };\n";
    let constants = ["WORDS", "ONE", "TWO", "THREE", "FOUR"];
    assert_eq!(
        names(header),
        constants.map(|name| format!("REEDSANDER_{name}"))
    );
}

/// A heading of depth 7 in a quote, checked and set; lengths of 0 beside
/// pointers that are not null.
const CALLS: &str = r#"
#include "reedsander.h"
#include <stdio.h>

int main(void) {
    uint32_t sheet[2 * REEDSANDER_RECORD_WORDS] = {
        REEDSANDER_KIND_BLOCK_QUOTE, 1, 0, 0, 0, 0, 0, 0, 0, 0, 0, 0,
        REEDSANDER_KIND_HEADING, 2, 0, 0, 0, 7, 0, 0, 0, 0, 0, 0};
    uint32_t words[8] = {0};
    uint8_t text[1] = {0};
    uint64_t answer = reedsander_check(sheet, 24, text, 0, words, 8);
    printf("%d", REEDSANDER_NUMBER(answer) == REEDSANDER_ACCEPTED);
    printf("%d", REEDSANDER_LOW(answer) == 1);
    printf("%d", words[0] == REEDSANDER_RULE_HEADING_DEPTH);
    answer = reedsander_set(sheet, 24, text, 0, words, 8);
    printf("%d", REEDSANDER_NUMBER(answer) == REEDSANDER_STOP_HEADING_DEPTH);
    printf("%d", REEDSANDER_LOW(answer) == 1);
    answer = reedsander_set(sheet, 24, text, 0, words, 0);
    printf("%d", REEDSANDER_NUMBER(answer) == REEDSANDER_REFUSED + REEDSANDER_SHORT_MARKS);
    answer = reedsander_check(sheet, 0, text, 0, words, 0);
    printf("%d\n", answer == REEDSANDER_ACCEPTED);
    return 0;
}
"#;

#[test]
fn calls() {
    for (compiler, ending) in COMPILERS {
        let printed = c::printed(compiler, &format!("calls.{ending}"), CALLS);
        assert_eq!(printed, "1111111\n", "{compiler:?}");
    }
}

/// The sheet and its text may overlap: here the text is the sheet's own bytes,
/// and the name of the directive is in the word of its span's start.
const OVERLAP: &str = r#"
#include "reedsander.h"
#include <stdio.h>

int main(void) {
    uint32_t sheet[REEDSANDER_RECORD_WORDS] = {
        REEDSANDER_KIND_LEAF_DIRECTIVE, 1, 1, 'a', 0, 0, 0, 0, 12, 1, 0, 0};
    uint32_t report[8] = {0};
    const uint8_t *text = (const uint8_t *)sheet;
    uint64_t answer = reedsander_check(sheet, 12, text, sizeof sheet, report, 8);
    printf("%u", (unsigned)REEDSANDER_LOW(answer));
    sheet[3] = '1';
    answer = reedsander_check(sheet, 12, text, sizeof sheet, report, 8);
    printf(" %u %u\n", (unsigned)REEDSANDER_LOW(answer), (unsigned)report[0]);
    return 0;
}
"#;

#[test]
fn overlapping() {
    for (compiler, ending) in COMPILERS {
        let printed = c::printed(compiler, &format!("overlap.{ending}"), OVERLAP);
        assert_eq!(printed, "0 1 54\n", "{compiler:?}");
    }
}
