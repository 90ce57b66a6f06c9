//! Finds the static library where `tools/library` writes it.
use std::path::PathBuf;
use std::process::exit;

fn main() {
    let folder = PathBuf::from(env!("CARGO_MANIFEST_DIR")).join("../../target/staticlib");
    let archive = folder.join("libsakyelbo.a");
    println!("cargo:rerun-if-changed={}", archive.display());
    if !archive.is_file() {
        eprintln!("there is no {}: run `tools/library` in the root of the repository", archive.display());
        exit(1);
    }
    println!("cargo:rustc-link-search=native={}", folder.display());
    println!("cargo:rustc-link-lib=static=sakyelbo");
}
