//! Tells the tests where the archive is that the crate `migration` links.

fn main() {
    println!("cargo:rerun-if-changed=build.rs");
    let archive = std::env::var("DEP_MIGRATION_ARCHIVE").expect("the path that migration tells");
    println!("cargo:rustc-env=MIGRATION_ARCHIVE={archive}");
}
