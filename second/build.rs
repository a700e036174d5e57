//! Links the library that `build` leaves in target/native.
use std::path::Path;

fn main() {
    let package = std::env::var("CARGO_MANIFEST_DIR").expect("cargo names the package's folder");
    let native = Path::new(&package).join("../target/native");
    let library = native.join("libpistonwool.a");
    assert!(library.exists(), "no {}: run ./build first", library.display());
    println!("cargo::rerun-if-changed={}", library.display());
    println!("cargo::rustc-link-search=native={}", native.display());
    println!("cargo::rustc-link-lib=static=pistonwool");
}
