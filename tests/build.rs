//! Links the library under test, which is built outside cargo.

use std::path::Path;

fn main() {
    let directory = Path::new(env!("CARGO_MANIFEST_DIR")).join("../target/staticlib");
    let archive = directory.join("libexports.a");
    println!("cargo::rerun-if-changed={}", archive.display());
    if archive.is_file() {
        println!("cargo::rustc-link-search=native={}", directory.display());
        println!("cargo::rustc-link-lib=static=exports");
    } else {
        println!("cargo::error={} is missing: run `tools/build exports` first", archive.display());
    }
}
