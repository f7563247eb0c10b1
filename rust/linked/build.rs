//! Links the archive of the proved library.

use std::env;
use std::path::Path;

fn main() {
    println!("cargo:rerun-if-changed=build.rs");
    let manifest = env::var("CARGO_MANIFEST_DIR").expect("cargo sets CARGO_MANIFEST_DIR");
    let archive = Path::new(&manifest).join("../../target/staticlib");
    println!("cargo:rerun-if-changed={}", archive.join("libexport.a").display());
    println!("cargo:rustc-link-search=native={}", archive.display());
    println!("cargo:rustc-link-lib=static=export");
}
