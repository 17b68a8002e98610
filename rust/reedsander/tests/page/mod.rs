//! The repository's pages, read by the tests.

use std::{fs, path::Path};

/// A page, by its path from the repository's root.
pub fn read(name: &str) -> String {
    let root = Path::new(env!("CARGO_MANIFEST_DIR")).join("../..");
    fs::read_to_string(root.join(name)).unwrap()
}

/// What stands in the page's one fence of this name, and what is behind it.
pub fn fenced<'t>(page: &'t str, name: &str) -> (&'t str, &'t str) {
    let opening = format!("\n```{name}\n");
    let (_, behind) = page.split_once(&opening).expect(name);
    assert!(!behind.contains(&opening), "one fence of the name {name}");
    let (inside, behind) = behind.split_once("\n```\n").expect("the fence's end");
    (inside, behind)
}
