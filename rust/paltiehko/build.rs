//! Links the static library that `rt lib` makes in crates/paltiehko.

use std::path::Path;

fn main() {
    let folder = Path::new(env!("CARGO_MANIFEST_DIR")).join("../../crates/paltiehko/out");
    let library = folder.join("libpaltiehko.a");
    println!("cargo:rerun-if-changed={}", library.display());
    if !library.exists() {
        eprintln!("{} is missing: run `rt lib` in crates/paltiehko first", library.display());
        std::process::exit(1);
    }
    println!("cargo:rustc-link-search=native={}", folder.display());
    println!("cargo:rustc-link-lib=static=paltiehko");
}
