//! Links the static library that `.ci/library` writes.

use std::path::Path;

fn main() {
    let folder = concat!(env!("CARGO_MANIFEST_DIR"), "/../../target/staticlib");
    let library = format!("{folder}/libboard.a");
    println!("cargo::rerun-if-changed={library}");
    if !Path::new(&library).exists() {
        println!(
            "cargo::error=target/staticlib/libboard.a is missing: run `.ci/library` in the repository's root"
        );
        return;
    }
    println!("cargo::rustc-link-search=native={folder}");
    println!("cargo::rustc-link-lib=static=board");
}
