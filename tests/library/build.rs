//! Links the static library of the exported calls: tests/run builds it by
//! `rt lib` and copies it to target/staticlib of the repository.

use std::path::Path;

const CRATE: &str = "script";

fn main() {
    let package = std::env::var("CARGO_MANIFEST_DIR").expect("cargo sets it");
    let libraries = Path::new(&package).join("../../target/staticlib");
    println!("cargo:rustc-link-search=native={}", libraries.display());
    println!("cargo:rustc-link-lib=static={CRATE}");
    let file = libraries.join(format!("lib{CRATE}.a"));
    println!("cargo:rerun-if-changed={}", file.display());
}
