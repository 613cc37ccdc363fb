//! Links `libkernel.a`, which lies beside the board's library. benchmark/ has this script too.

use std::path::Path;

fn main() {
    let folder = concat!(env!("CARGO_MANIFEST_DIR"), "/../target/staticlib");
    let library = format!("{folder}/libkernel.a");
    println!("cargo::rerun-if-changed={library}");
    if !Path::new(&library).exists() {
        println!(
            "cargo::error=target/staticlib/libkernel.a is missing: run `.ci/library kernel` in the repository's root"
        );
        return;
    }
    println!("cargo::rustc-link-search=native={folder}");
    println!("cargo::rustc-link-lib=static=kernel");
}
