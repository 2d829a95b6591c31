//! Links `libmigration.a`, the static library of the proved code.
//!
//! It is taken from the folder that MIGRATION_ARCHIVE_DIR names; else from
//! `target/staticlib` of the repository, where `.ci/archive` writes it if it is
//! missing or older than the code.  That proves what has changed: minutes from
//! nothing.  A crate that depends on this one is told the archive's path, as
//! DEP_MIGRATION_ARCHIVE.

use std::path::{Path, PathBuf};
use std::process::Command;

fn main() {
    println!("cargo:rerun-if-changed=build.rs");
    println!("cargo:rerun-if-env-changed=MIGRATION_ARCHIVE_DIR");
    let folder = match std::env::var_os("MIGRATION_ARCHIVE_DIR") {
        Some(folder) => PathBuf::from(folder),
        None => archive_of_the_repository(),
    };
    let archive = folder.join("libmigration.a");
    println!("cargo:rerun-if-changed={}", archive.display());
    println!("cargo:archive={}", archive.display());
    println!("cargo:rustc-link-search=native={}", folder.display());
    println!("cargo:rustc-link-lib=static=migration");
}

/// The folder with the archive, which is written first where it has to be.
fn archive_of_the_repository() -> PathBuf {
    let root = Path::new(env!("CARGO_MANIFEST_DIR")).join("../..");
    println!("cargo:rerun-if-changed={}", root.join("crates").display());
    match Command::new("bash").arg(root.join(".ci/archive")).status() {
        Ok(status) if status.success() => root.join("target/staticlib"),
        Ok(status) => panic!("'.ci/archive' ended with {status}"),
        Err(error) => panic!("bash, to run '.ci/archive': {error}"),
    }
}
