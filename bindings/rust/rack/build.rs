//! Tells the linker where `librack.a` is.
//!
//! `RACK_LIBRARY_DIR`, an absolute path, names its directory; without it the
//! directory is `target/staticlib` of the repository.

use std::env;
use std::path::{Path, PathBuf};

fn main() {
    let directory = library_directory();
    let archive = directory.join("librack.a");
    println!("cargo:rerun-if-env-changed=RACK_LIBRARY_DIR");
    println!("cargo:rerun-if-changed={}", archive.display());
    println!("cargo:rustc-link-search=native={}", directory.display());
    println!("cargo:rustc-link-lib=static=rack");
}

fn library_directory() -> PathBuf {
    if let Some(directory) = env::var_os("RACK_LIBRARY_DIR") {
        return PathBuf::from(directory);
    }
    let manifest = env::var_os("CARGO_MANIFEST_DIR").expect("cargo sets CARGO_MANIFEST_DIR");
    Path::new(&manifest).join("../../../target/staticlib")
}
