//! `adapt!` does not compile where the notes' tree has a variant or a field
//! that it does not know. The tree here is the reference's `ast.rs` with
//! something added, in a crate of its own.

use std::{
    env, fs,
    path::{Path, PathBuf},
    process::Command,
    time::SystemTime,
};

/// The enums that decide what a record is.
const ENUMS: [&str; 10] = [
    "Block",
    "Inline",
    "HtmlContainerContent",
    "ListDelimiter",
    "CodeBlockKind",
    "FrontmatterKind",
    "LinkDestinationKind",
    "LineBreakKind",
    "MathInlineKind",
    "EmphasisDelimiter",
];

/// The structs with private fields, which no pattern names in full, and the
/// one that no record has anything of.
const OTHERS: [&str; 7] = [
    "Document",
    "Paragraph",
    "Heading",
    "TableCell",
    "LeafDirective",
    "ContainerDirective",
    "Title",
];

fn root() -> PathBuf {
    Path::new(env!("CARGO_MANIFEST_DIR")).join("../..")
}

/// The folder of the reference sources, found as `rust/oracle` finds it.
fn sources() -> PathBuf {
    let named = env::var_os("DOCS_SRC").filter(|named| !named.is_empty());
    let folder = root().join(named.unwrap_or_else(|| "../shared/docs/src".into()));
    folder.canonicalize().expect("the reference sources")
}

/// The wrapper as it was built for this test.
fn wrapper(built: &Path) -> PathBuf {
    let is_wrapper = |path: &PathBuf| {
        let name = path.file_name().and_then(|name| name.to_str());
        name.is_some_and(|name| name.starts_with("libreedsander-") && name.ends_with(".rlib"))
    };
    let age = |path: &PathBuf| -> SystemTime { path.metadata().unwrap().modified().unwrap() };
    let files = fs::read_dir(built)
        .unwrap()
        .map(|entry| entry.unwrap().path());
    files
        .filter(is_wrapper)
        .max_by_key(age)
        .expect("the wrapper's library")
}

/// What rustc says of the tree `ast` with its adapter; nothing where it
/// compiles.
fn compiled(name: &str, ast: &str) -> String {
    let folder = env::temp_dir().join(format!("adapt-{name}-{}", std::process::id()));
    fs::create_dir_all(&folder).unwrap();
    fs::write(folder.join("ast.rs"), ast).unwrap();
    let oracle = root().join("rust/oracle/src").canonicalize().unwrap();
    let mut lines = String::from("#![allow(dead_code)]\nextern crate alloc;\n");
    let module = |name: &str, folder: &Path| {
        format!(
            "#[path = {:?}]\npub mod {name};\n",
            folder.join(name).with_extension("rs")
        )
    };
    lines += &module("ast", &folder);
    for name in ["diagnostic", "span"] {
        lines += &module(name, &sources());
    }
    for name in ["decode", "gemoji", "parse"] {
        lines += &module(name, &oracle);
    }
    lines += "pub mod notes { reedsander::adapt!(crate::ast); }\n";
    fs::write(folder.join("lib.rs"), lines).unwrap();
    let said = rustc(&folder);
    fs::remove_dir_all(folder).unwrap();
    said
}

/// What rustc says of the crate in a folder.
fn rustc(folder: &Path) -> String {
    let test = env::current_exe().unwrap();
    let built = test.parent().unwrap();
    let output = Command::new(env::var_os("RUSTC").unwrap_or_else(|| "rustc".into()))
        .args([
            "--edition",
            "2021",
            "--crate-type",
            "lib",
            "--emit",
            "metadata",
            "--color",
            "never",
        ])
        .arg("--extern")
        .arg(format!("reedsander={}", wrapper(built).display()))
        .arg("-L")
        .arg(format!("dependency={}", built.display()))
        .arg("--out-dir")
        .args([folder, &folder.join("lib.rs")])
        .output()
        .expect("rustc");
    let said = String::from_utf8(output.stderr).unwrap();
    assert_eq!(output.status.success(), !said.contains("error"), "{said}");
    said
}

/// The first lines of the errors in the adapter.
fn errors(said: &str) -> Vec<&str> {
    let blocks = said.split("\n\n");
    let own = blocks.filter(|block| block.contains("reedsander::adapt!(crate::ast)"));
    own.filter_map(|block| block.lines().find(|line| line.starts_with("error")))
        .collect()
}

fn tree() -> String {
    fs::read_to_string(sources().join("ast.rs")).unwrap()
}

#[test]
fn as_it_is() {
    assert_eq!(compiled("as-it-is", &tree()), "");
}

/// Each enum has one more variant.
#[test]
fn new_variants() {
    let mut ast = tree();
    for name in ENUMS {
        let begins = format!("pub enum {name} {{\n");
        assert!(ast.contains(&begins), "{name}");
        ast = ast.replace(&begins, &format!("{begins}New,\n"));
    }
    let said = compiled("new-variants", &ast);
    let errors = errors(&said);
    for name in ENUMS {
        let missed = format!("{name}::New` not covered");
        assert!(
            errors.iter().any(|error| error.contains(&missed)),
            "{name}\n{said}"
        );
    }
}

/// Each struct has one more field.
#[test]
fn new_fields() {
    let ast = tree();
    let structs = ast.split("\npub struct ").skip(1);
    let names = structs.filter_map(|text| text.split_once(" {\n").map(|(name, _)| name));
    let is_plain = |name: &&str| name.chars().all(char::is_alphanumeric) && !OTHERS.contains(name);
    let names: Vec<&str> = names.filter(is_plain).collect();
    assert_eq!(names.len(), 41, "{names:?}");
    let mut more = ast.clone();
    for name in &names {
        let begins = format!("\npub struct {name} {{\n");
        more = more.replace(&begins, &format!("{begins}pub new_in_{name}: (),\n"));
    }
    // One pattern a struct, and a second one of a tag's. In a macro of another
    // crate rustc does not say which field is missed.
    let said = compiled("new-fields", &more);
    assert_eq!(errors(&said).len(), names.len() + 1, "{said}");
}
