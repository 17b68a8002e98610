//! The build script, run by itself: what it links, and what it says where
//! something is missing.

use std::{
    fs,
    os::unix::fs::symlink,
    path::{Path, PathBuf},
    process::{Command, Output},
    sync::OnceLock,
};

/// An archive that names both functions.
const LIBRARY: &[u8] =
    b"!<arch>\n/   index\0\0\0\x09reedsander_check\0reedsander_set\0reedsander_form_1\0";

/// The build script as a program, compiled once.
fn script() -> &'static Path {
    static SCRIPT: OnceLock<PathBuf> = OnceLock::new();
    SCRIPT.get_or_init(|| {
        let script = Path::new(env!("CARGO_TARGET_TMPDIR")).join("build_script");
        let status = Command::new("rustc")
            .args(["--edition", "2021", "-o"])
            .arg(&script)
            .arg(concat!(env!("CARGO_MANIFEST_DIR"), "/build.rs"))
            .status();
        assert!(status.unwrap().success());
        script
    })
}

/// A folder of a test's own, empty, with one for what is built and one of
/// commands, of which `sh` is the only one.
fn room(name: &str) -> PathBuf {
    let room = Path::new(env!("CARGO_TARGET_TMPDIR")).join(name);
    let _ = fs::remove_dir_all(&room);
    for folder in ["out", "bin", "lib"] {
        fs::create_dir_all(room.join(folder)).unwrap();
    }
    symlink("/bin/sh", room.join("bin/sh")).unwrap();
    room
}

/// Such a room with a clone of the repository: only what the script looks at,
/// with another `./staticlib`.
fn clone(name: &str, below: &str, staticlib: &str) -> (PathBuf, PathBuf) {
    let room = room(name);
    let root = room.join(below);
    for folder in ["rust/reedsander", "crates/setter_c/src", "target/staticlib"] {
        fs::create_dir_all(root.join(folder)).unwrap();
    }
    fs::write(root.join("staticlib"), staticlib).unwrap();
    let manifest = root.join("rust/reedsander");
    (room, manifest)
}

/// A `./staticlib` that writes the library, and no more.
fn writing() -> String {
    let bytes = LIBRARY.escape_ascii().to_string();
    let octal = bytes.replace("\\x00", "\\000").replace("\\t", "\\011");
    format!("printf '{octal}' >\"${{0%/*}}/target/staticlib/libsetter.a\"\n")
}

/// A run of the script for the crate in a folder.
fn run(room: &Path, manifest: &Path, library: Option<&str>, target: &str) -> Output {
    let mut command = Command::new(script());
    command
        .env_clear()
        .env("PATH", room.join("bin"))
        .env("OUT_DIR", room.join("out"))
        .env("CARGO_MANIFEST_DIR", manifest)
        .env("CARGO_CFG_TARGET_ARCH", target)
        .current_dir(manifest);
    if let Some(library) = library {
        command.env("REEDSANDER_LIB_DIR", library);
    }
    command.output().unwrap()
}

/// The run fails, and says these words.
fn fails(output: &Output, words: &[&str]) {
    let said = String::from_utf8_lossy(&output.stderr);
    assert!(!output.status.success(), "{said}");
    assert!(!said.contains("panicked"), "{said}");
    for words in words {
        assert!(said.contains(words), "{words}: {said}");
    }
    let out = String::from_utf8_lossy(&output.stdout);
    assert!(!out.contains("rustc-link-lib"), "{out}");
}

/// The run links the library.
fn links(output: &Output, room: &Path) {
    let said = String::from_utf8_lossy(&output.stderr);
    assert!(output.status.success(), "{said}");
    let out = String::from_utf8_lossy(&output.stdout);
    let search = format!(
        "cargo:rustc-link-search=native={}",
        room.join("out").display()
    );
    assert!(out.lines().any(|line| line == search), "{out}");
    assert!(out
        .lines()
        .any(|line| line == "cargo:rustc-link-lib=static=setter"));
    assert_eq!(fs::read(room.join("out/libsetter.a")).unwrap(), LIBRARY);
}

#[test]
fn a_library_that_is_named() {
    let room = room("named");
    let folder = room.join("lib");
    let named = folder.to_str();
    let run = |named| run(&room, &room, named, "x86_64");
    fails(
        &run(named),
        &["there is no libsetter.a in it", "./staticlib"],
    );
    fs::write(folder.join("libsetter.a"), LIBRARY).unwrap();
    links(&run(named), &room);
    // It is there by this name as well, seen from the crate.
    fails(
        &run(Some("lib")),
        &["REEDSANDER_LIB_DIR is lib", "absolute"],
    );
}

#[test]
fn a_library_that_does_not_fit() {
    let room = room("old");
    let folder = room.join("lib");
    let without = |symbol: &str| {
        let text = String::from_utf8(LIBRARY.to_vec()).unwrap();
        text.replace(symbol, &format!("an_{symbol}")).into_bytes()
    };
    for (bytes, words) in [
        (
            without("reedsander_check"),
            "does not export reedsander_check",
        ),
        (without("reedsander_set"), "older than this crate"),
        // A library of another form.
        (
            without("reedsander_form_1"),
            "or newer: it does not export reedsander_form_1",
        ),
        (LIBRARY[1..].to_vec(), "is no static library"),
    ] {
        fs::write(folder.join("libsetter.a"), bytes).unwrap();
        fails(&run(&room, &room, folder.to_str(), "x86_64"), &[words]);
    }
}

#[test]
fn another_machine() {
    let room = room("arm");
    fs::write(room.join("lib/libsetter.a"), LIBRARY).unwrap();
    let folder = room.join("lib");
    let output = run(&room, &room, folder.to_str(), "aarch64");
    fails(&output, &["x86-64", "aarch64"]);
}

/// A copy of the crate, a vendored one, and what cargo has checked out.
#[test]
fn out_of_the_repository() {
    let words = ["not stand in a clone", "REEDSANDER_LIB_DIR", "./staticlib"];
    let copy = room("copy");
    fails(&run(&copy, &copy, Some(""), "x86_64"), &words);
    let (room, manifest) = clone("vendored", "", &writing());
    let vendored = room.join("vendor/reedsander");
    fs::create_dir_all(&vendored).unwrap();
    fs::write(room.join("bin/rt"), "").unwrap();
    fails(&run(&room, &vendored, None, "x86_64"), &words);
    links(&run(&room, &manifest, None, "x86_64"), &room);
    let (room, manifest) = clone("fetched", "git/checkouts/x/1", &writing());
    fs::write(room.join("bin/rt"), "").unwrap();
    fails(&run(&room, &manifest, None, "x86_64"), &words);
}

/// In a clone: with rt and without, and where the library is not built.
#[test]
fn in_the_repository() {
    let (room, manifest) = clone("clone", "", &writing());
    let run = || run(&room, &manifest, None, "x86_64");
    let words = [
        "rt, the command of Rattle's kit, is not on PATH",
        "REEDSANDER_LIB_DIR",
    ];
    fails(&run(), &words);
    fs::write(room.join("bin/rt"), "").unwrap();
    let output = run();
    links(&output, &room);
    let said = String::from_utf8_lossy(&output.stderr);
    assert!(said.contains("this may take some minutes"), "{said}");
    fs::write(room.join("staticlib"), "echo not proved >&2\nexit 3\n").unwrap();
    fails(&run(), &["not proved", "./staticlib failed", "3"]);
}
