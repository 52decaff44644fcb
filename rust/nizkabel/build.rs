//! Links the proved static library, which `./build library` makes in the repository's target/staticlib.

use std::path::PathBuf;

fn main() {
    let here = PathBuf::from(std::env::var("CARGO_MANIFEST_DIR").expect("cargo sets it"));
    let root = here.join("../..");
    let root = root.canonicalize().unwrap_or(root);
    let library = root.join("target/staticlib/libnizkabel.a");
    println!("cargo:rerun-if-changed={}", library.display());
    if !library.is_file() {
        println!("cargo::error=the proved library isn't built: run `./build library` in {}", root.display());
        return;
    }
    println!("cargo:rustc-link-search=native={}", root.join("target/staticlib").display());
    println!("cargo:rustc-link-lib=static=nizkabel");
}
