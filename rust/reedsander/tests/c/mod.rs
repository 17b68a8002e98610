//! Programs in C and C++, compiled with the header, linked with the library
//! and run.

use std::{
    fs,
    path::{Path, PathBuf},
    process::{Command, Output},
};

/// The folder of the header.
pub fn include() -> PathBuf {
    Path::new(env!("CARGO_MANIFEST_DIR")).join("../../include")
}

/// What a program prints. `compiler` is a command and its first arguments.
pub fn printed(compiler: &[&str], name: &str, source: &str) -> String {
    let folder = Path::new(env!("CARGO_TARGET_TMPDIR"));
    let (file, program) = (folder.join(name), folder.join(format!("{name}.out")));
    fs::write(&file, source).unwrap();
    let mut command = Command::new(compiler[0]);
    command
        .args(&compiler[1..])
        .args(["-Wall", "-Wextra", "-Werror", "-I"])
        .arg(include())
        .arg(&file)
        .arg(env!("REEDSANDER_LIBRARY"))
        .arg("-o")
        .arg(&program);
    run(&mut command);
    String::from_utf8(run(&mut Command::new(program)).stdout).unwrap()
}

/// A run that succeeds and has no word of complaint.
fn run(command: &mut Command) -> Output {
    let output = command.output();
    let output = output.unwrap_or_else(|error| {
        panic!("{command:?}: {error}; this test needs the C compiler cc and the C++ compiler c++")
    });
    let said = String::from_utf8_lossy(&output.stderr);
    assert!(output.status.success(), "{command:?}: {said}");
    assert_eq!(said, "", "{command:?}");
    output
}
