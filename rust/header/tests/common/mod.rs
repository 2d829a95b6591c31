//! The header, and a C program over it built and run.

#![allow(dead_code)]

use std::fs;
use std::path::{Path, PathBuf};
use std::process::Command;

/// A file of the repository.
pub fn repository(path: &str) -> PathBuf {
    Path::new(env!("CARGO_MANIFEST_DIR")).join("../..").join(path)
}

/// The header's text.
pub fn header_text() -> String {
    fs::read_to_string(repository("include/migration.h")).expect("the header")
}

/// Builds a program with the header of a folder and the library, and runs it:
/// what it prints, as an error where it ends with a failure.  `name` is that of a
/// folder of its own.
pub fn run(name: &str, include: &Path, program: &str) -> Result<String, String> {
    let folder = folder(name);
    let (source, built) = (folder.join("program.c"), folder.join("program"));
    fs::write(&source, program).expect("a folder to write to");
    let mut cc = Command::new("cc");
    cc.args(["-std=c99", "-Wall", "-Wextra", "-Werror"]).arg("-I").arg(include);
    cc.arg(&source).arg(env!("MIGRATION_ARCHIVE")).arg("-o").arg(&built);
    let compiled = cc.output().expect("cc, which builds the program");
    let complaint = String::from_utf8_lossy(&compiled.stderr);
    assert!(compiled.status.success(), "{name}: cc ends with {}:\n{complaint}", compiled.status);
    let output = Command::new(&built).output().expect("the program that was built");
    let printed = String::from_utf8_lossy(&output.stdout).into_owned();
    if output.status.success() {
        Ok(printed)
    } else {
        Err(format!("{printed}{}", output.status))
    }
}

/// Builds and runs a program with another text as the header.
pub fn run_with(name: &str, header: &str, program: &str) -> Result<String, String> {
    let folder = folder(name);
    fs::write(folder.join("migration.h"), header).expect("a folder to write to");
    let printed = run(name, &folder, program);
    fs::remove_dir_all(&folder).expect("a folder that was written");
    printed
}

/// A folder for the files of one run.
fn folder(name: &str) -> PathBuf {
    let folder = Path::new(env!("CARGO_TARGET_TMPDIR")).join("header").join(name);
    fs::create_dir_all(&folder).expect("a folder to write to");
    folder
}
