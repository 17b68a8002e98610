//! Finds the checker's static library and links it.
//!
//! `REEDSANDER_LIB_DIR` names a folder that holds `libsetter.a`, by an
//! absolute path. Without it, in a clone of Reedsander's repository,
//! `./staticlib` is run, which proves the checker and the setting machine and
//! writes the library. What is missing is said.
//!
//! The library is copied to cargo's own folder, so that what was built stays
//! whole when the root's `target/` is removed.

use std::{
    env, fs,
    io::Write,
    path::{Path, PathBuf},
    process::{self, Command},
};

const LIBRARY: &str = "libsetter.a";

/// What the library must export for this crate: the two functions, and the
/// form of their words that this crate knows. A library that has not all of
/// these is older than the crate, or newer.
const SYMBOLS: [&str; 3] = ["reedsander_check", "reedsander_set", "reedsander_form_1"];

/// The crates that the library is made of.
const CRATES: [&str; 5] = ["leaves", "inlines", "blocks", "setter", "setter_c"];

/// How to come by a library elsewhere.
const ELSEWHERE: &str = "\
Set REEDSANDER_LIB_DIR to the absolute path of a folder that holds libsetter.a:
`./staticlib` in a clone of Reedsander's repository, of the same version as this
crate, proves it and writes it to target/staticlib";

fn main() {
    println!("cargo:rerun-if-env-changed=REEDSANDER_LIB_DIR");
    println!("cargo:rerun-if-changed=build.rs");
    if let Err(message) = link() {
        eprintln!("\nreedsander: {message}.\n");
        process::exit(1);
    }
}

/// Links the library, or says why not.
fn link() -> Result<(), String> {
    let target = env::var("CARGO_CFG_TARGET_ARCH").unwrap_or_default();
    if target != "x86_64" {
        return Err(format!(
            "the library is made for x86-64, and this build is for {target}"
        ));
    }
    let named = env::var_os("REEDSANDER_LIB_DIR").filter(|named| !named.is_empty());
    let library = match named {
        Some(named) => given(Path::new(&named))?,
        None => proved()?,
    };
    let bytes = fs::read(&library).map_err(|error| format!("{}: {error}", library.display()))?;
    fits(&library, &bytes)?;

    let out = folder("OUT_DIR");
    let copy = out.join(LIBRARY);
    fs::write(&copy, bytes).map_err(|error| format!("{}: {error}", copy.display()))?;
    println!("cargo:rustc-link-search=native={}", out.display());
    println!("cargo:rustc-link-lib=static=setter");
    // For the tests that link C.
    println!("cargo:rustc-env=REEDSANDER_LIBRARY={}", copy.display());
    Ok(())
}

/// A folder that cargo names.
fn folder(variable: &str) -> PathBuf {
    let named = env::var_os(variable).unwrap_or_else(|| panic!("cargo sets {variable}"));
    PathBuf::from(named)
}

/// The library in a folder that the caller names.
fn given(folder: &Path) -> Result<PathBuf, String> {
    let shown = folder.display();
    if folder.is_relative() {
        return Err(format!(
            "REEDSANDER_LIB_DIR is {shown}, which is relative,
and cargo builds each crate in another folder. Name it by its absolute path"
        ));
    }
    let library = folder.join(LIBRARY);
    println!("cargo:rerun-if-changed={}", library.display());
    if library.is_file() {
        return Ok(library);
    }
    Err(format!(
        "REEDSANDER_LIB_DIR is {shown}, and there is no {LIBRARY} in it.\n{ELSEWHERE}"
    ))
}

/// The library as the checker's own sources give it.
fn proved() -> Result<PathBuf, String> {
    let Some(root) = repository() else {
        return Err(format!(
            "this crate does not stand in a clone of Reedsander's repository,
so that the library cannot be built here.\n{ELSEWHERE}"
        ));
    };
    for source in sources(&root) {
        println!("cargo:rerun-if-changed={}", source.display());
    }
    if !is_on_path("rt") {
        return Err(format!(
            "rt, the command of Rattle's kit, is not on PATH,
and ./staticlib proves and builds the library with it.\n{ELSEWHERE}"
        ));
    }
    say("reedsander: ./staticlib proves and builds the library; this may take some minutes");
    let status = Command::new("sh").arg(root.join("staticlib")).status();
    match status {
        Ok(status) if status.success() => Ok(root.join("target/staticlib").join(LIBRARY)),
        Ok(status) => Err(format!("./staticlib failed ({status}), see above")),
        Err(error) => Err(format!("./staticlib cannot be run by sh: {error}")),
    }
}

/// The root of the repository that this crate stands in. None in a copy of
/// the crate, and in what cargo has fetched for itself: a vendored crate, a
/// package of a registry, the checkout of a git dependency.
fn repository() -> Option<PathBuf> {
    let here = fs::canonicalize(folder("CARGO_MANIFEST_DIR")).ok()?;
    let root = here.parent()?.parent()?;
    let names: Vec<_> = root.iter().collect();
    let is_fetched = names.windows(2).any(|names| names == ["git", "checkouts"]);
    let is_whole = root.join("staticlib").is_file() && root.join("crates/setter_c").is_dir();
    let is_clone = here.ends_with("rust/reedsander") && is_whole && !is_fetched;
    is_clone.then(|| root.to_path_buf())
}

/// What the library is made from.
fn sources(root: &Path) -> Vec<PathBuf> {
    let mut all = vec![root.join("crates.txt"), root.join("staticlib")];
    for name in CRATES {
        let parts = ["src", "specs", "proofs"];
        all.extend(parts.map(|part| root.join("crates").join(name).join(part)));
    }
    all.retain(|source| source.exists());
    all
}

fn is_on_path(command: &str) -> bool {
    let path = env::var_os("PATH").unwrap_or_default();
    env::split_paths(&path).any(|folder| folder.join(command).is_file())
}

/// Says a line on the terminal, where there is one: what a build script prints
/// is kept by cargo until the script has ended.
fn say(line: &str) {
    eprintln!("{line}");
    if let Ok(mut terminal) = fs::OpenOptions::new().write(true).open("/dev/tty") {
        // Over cargo's own line, which is drawn again. Without a terminal
        // nothing is lost but the line.
        let _ = writeln!(terminal, "\r\x1b[K{line}");
    }
}

/// Whether the file is a library, and has the form that this crate knows.
fn fits(library: &Path, bytes: &[u8]) -> Result<(), String> {
    let shown = library.display();
    if !bytes.starts_with(b"!<arch>\n") {
        return Err(format!("{shown} is no static library"));
    }
    match SYMBOLS.iter().find(|symbol| !has_symbol(bytes, symbol)) {
        None => Ok(()),
        Some(symbol) => Err(format!(
            "{shown} is older than this crate, or newer: it does not export {symbol}.\n{ELSEWHERE}"
        )),
    }
}

/// Whether an archive names a symbol: in its index, and in the objects' own
/// tables, a NUL stands behind each name.
fn has_symbol(archive: &[u8], symbol: &str) -> bool {
    let is_part = |&byte: &u8| byte.is_ascii_alphanumeric() || byte == b'_';
    let mut strings = archive.split(|&byte| byte == 0);
    strings.any(|string| {
        let before = string.strip_suffix(symbol.as_bytes());
        before.is_some_and(|before| !before.last().is_some_and(is_part))
    })
}
