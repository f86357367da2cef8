//! Tells the linker where libjefkantu.a is: the directory JEFKANTU_LIB_DIR, or the repository's target/staticlib.

use std::path::PathBuf;

fn main() {
    println!("cargo:rerun-if-env-changed=JEFKANTU_LIB_DIR");
    println!("cargo:rerun-if-changed=build.rs");
    let default = concat!(env!("CARGO_MANIFEST_DIR"), "/../../target/staticlib");
    let directory = std::env::var_os("JEFKANTU_LIB_DIR").unwrap_or_else(|| default.into());
    let archive = PathBuf::from(&directory).join("libjefkantu.a");
    println!("cargo:rerun-if-changed={}", archive.display());
    let Ok(archive) = archive.canonicalize() else {
        eprintln!("there is no {}: `tests/library` writes it", archive.display());
        std::process::exit(1)
    };
    let directory = archive.parent().expect("a file is in a directory");
    println!("cargo:rustc-link-search=native={}", directory.display());
}
