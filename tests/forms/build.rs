//! Says where the static libraries of the proved crates are: tests/run builds
//! them by `rt lib` and copies them to target/staticlib of the repository, each
//! under the name of the crate whose calls it exports.

use std::path::Path;

fn main() {
    let package = std::env::var("CARGO_MANIFEST_DIR").expect("cargo sets it");
    let libraries = Path::new(&package).join("../../target/staticlib");
    println!("cargo:rustc-link-search=native={}", libraries.display());
    for name in ["hash", "bucket_c", "datagram_c"] {
        let file = libraries.join(format!("lib{name}.a"));
        println!("cargo:rerun-if-changed={}", file.display());
    }
}
