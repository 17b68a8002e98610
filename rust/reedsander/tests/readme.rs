//! README's examples, as they stand there: each is compiled and run, and what
//! README says that it prints is printed.

mod c;
#[path = "../examples/notes/mod.rs"]
mod notes;
mod page;

use std::{env, fs, path::Path, process::Command};

/// The page up to its next heading.
fn section(page: &str) -> &str {
    page.split("\n#").next().unwrap_or(page)
}

/// The lines that `./listing examples/faults` prints.
#[test]
fn listing() {
    let [_, _, (name, faults)] = notes::all();
    assert_eq!(name, "faults");
    let report = faults.check().unwrap();
    let mut lines: Vec<Vec<u32>> = Vec::new();
    let mut entries = report.iter();
    while !entries.is_empty() {
        let before = entries.words();
        entries.next();
        lines.push(before[..before.len() - entries.words().len()].to_vec());
    }
    let (stop, record) = faults.set().unwrap().0.stop().expect("a stop");
    lines.push(vec![report.len() as u32, stop.number(), record as u32]);
    let line = |words: &Vec<u32>| -> String {
        let fields = words.iter().map(|word| format!("{word:>11}"));
        format!("    {}\n", fields.collect::<String>())
    };
    let block: String = lines.iter().map(line).collect();
    let readme = page::read("README.md");
    assert!(readme.contains(&format!("\n\n{block}\n")), "{block}");
}

#[test]
fn c_example() {
    let readme = page::read("README.md");
    let (code, behind) = page::fenced(&readme, "c");
    let printed = c::printed(&["cc"], "readme.c", &format!("{code}\n"));
    let mut rest = section(behind);
    let lines: Vec<&str> = printed.lines().map(str::trim_end).collect();
    assert!(!lines.is_empty());
    for line in lines {
        let said = rest.split_once(&format!("`{line}`"));
        let said = said.unwrap_or_else(|| panic!("README does not say that `{line}` is printed"));
        rest = said.1;
    }
}

/// README's example in Rust is the program of a package of its own, which
/// depends on this crate by README's own lines.
#[test]
fn rust_example() {
    let readme = page::read("README.md");
    let (dependencies, _) = page::fenced(&readme, "toml");
    let (code, behind) = page::fenced(&readme, "rust");
    let package = Path::new(env!("CARGO_TARGET_TMPDIR")).join("readme");
    fs::create_dir_all(package.join("src")).unwrap();
    fs::write(package.join("Cargo.toml"), manifest(dependencies)).unwrap();
    fs::write(package.join("src/main.rs"), code).unwrap();
    let printed = printed(&package);
    let row = "rule 19 (table: row width) at 1/2, bytes 61 to 67\n";
    assert!(printed.starts_with(row), "{printed}");
    assert!(section(behind).contains("stopped: `CellTooFew`, at record 13."));
    let stopped = "Stopped { stop: CellTooFew, record: 13 }";
    assert!(printed.contains(stopped), "{printed}");
}

/// A package with README's dependencies, where the crate's path is whole.
fn manifest(dependencies: &str) -> String {
    let short = "…/rust/reedsander";
    assert!(dependencies.contains(short), "{dependencies}");
    format!(
        "[package]\nname = \"readme\"\nversion = \"0.1.0\"\nedition = \"2021\"\n{}\n[workspace]\n",
        dependencies.replace(short, env!("CARGO_MANIFEST_DIR"))
    )
}

/// What a package's program prints.
fn printed(package: &Path) -> String {
    let library = Path::new(env!("REEDSANDER_LIBRARY")).parent().unwrap();
    let cargo = env::var_os("CARGO").unwrap_or_else(|| "cargo".into());
    let output = Command::new(cargo)
        .args(["run", "--quiet", "--offline"])
        .current_dir(package)
        .env("CARGO_TARGET_DIR", package.join("target"))
        .env("REEDSANDER_LIB_DIR", library)
        .output()
        .unwrap();
    let said = String::from_utf8_lossy(&output.stderr);
    assert!(output.status.success(), "{said}");
    String::from_utf8(output.stdout).unwrap()
}
