//! Links libqalithonda.a into the program `compare`. The other program and the unit tests need no archive.
//!
//! The archive's folder is QALITHONDA_LIB, or `../target/staticlib`; a relative path starts at this file's folder.

use std::env;
use std::path::Path;

fn main() {
    let folder = env::var("QALITHONDA_LIB").unwrap_or_else(|_| "../target/staticlib".to_string());
    let archive = Path::new(env!("CARGO_MANIFEST_DIR")).join(folder).join("libqalithonda.a");
    println!("cargo:rerun-if-env-changed=QALITHONDA_LIB");
    println!("cargo:rerun-if-changed={}", archive.display());
    if archive.exists() {
        println!("cargo:rustc-link-arg-bin=compare={}", archive.display());
    } else {
        println!("cargo:warning={} is not there: `compare` cannot be linked", archive.display());
    }
}
