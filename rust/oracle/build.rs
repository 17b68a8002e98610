//! Finds the reference sources and writes the `mod` lines that compile them
//! where they lie, unchanged.
//!
//! `DOCS_SRC` names their folder; a relative name is seen from the
//! repository's root, the folder that holds `rust/`. Without it they are in
//! `../shared/docs/src`, seen from the same place.

use std::{
    env, fs,
    path::{Path, PathBuf},
};

/// The file, and whether its module is public.
const FILES: [(&str, bool); 5] = [
    ("ast", true),
    ("diagnostic", true),
    ("span", true),
    ("unicode_letters", false),
    ("validate", false),
];

/// The files were written for another crate: not all that they define is
/// used here, and some of their links lead to what is not here.
const ALLOW: &str = "#[allow(dead_code, rustdoc::all, clippy::all)]";

fn main() {
    println!("cargo:rerun-if-env-changed=DOCS_SRC");
    println!("cargo:rerun-if-changed=build.rs");

    let sources = sources();
    let mut lines = String::new();
    for (name, public) in FILES {
        let file = sources.join(name).with_extension("rs");
        assert!(
            file.is_file(),
            "{} is missing; DOCS_SRC names the folder of the reference sources",
            file.display()
        );
        println!("cargo:rerun-if-changed={}", file.display());
        let visibility = if public { "pub" } else { "pub(crate)" };
        lines += &format!("#[path = {file:?}]\n{ALLOW}\n{visibility} mod {name};\n");
    }
    let validate = sources.join("validate.rs");
    lines += &format!(
        "/// The text of validate.rs, for the test of the messages.\n#[cfg(test)]\npub(crate) const VALIDATE_SOURCE: &str = include_str!({validate:?});\n"
    );

    let out = PathBuf::from(env::var_os("OUT_DIR").expect("cargo sets OUT_DIR"));
    fs::write(out.join("sources.rs"), lines).expect("OUT_DIR can be written");
}

/// The folder of the reference sources.
fn sources() -> PathBuf {
    let manifest = env::var_os("CARGO_MANIFEST_DIR").expect("cargo sets CARGO_MANIFEST_DIR");
    let root = Path::new(&manifest).join("../..");
    let named = env::var_os("DOCS_SRC").filter(|named| !named.is_empty());
    let folder = root.join(named.unwrap_or_else(|| "../shared/docs/src".into()));
    fs::canonicalize(&folder).unwrap_or_else(|error| {
        panic!(
            "{}: {error}; DOCS_SRC names the folder of the reference sources",
            folder.display()
        )
    })
}
