//! Links libqalithonda.a. Its folder is QALITHONDA_LIB, or `../../target/staticlib`; a relative path starts at the
//! folder of this file.

use std::path::Path;
use std::{env, process};

fn main() {
    let folder = env::var("QALITHONDA_LIB").unwrap_or_else(|_| "../../target/staticlib".to_string());
    let folder = Path::new(env!("CARGO_MANIFEST_DIR")).join(folder);
    let archive = folder.join("libqalithonda.a");
    println!("cargo:rerun-if-env-changed=QALITHONDA_LIB");
    println!("cargo:rerun-if-changed={}", archive.display());
    if !archive.exists() {
        eprintln!("{} is not there: run `make` in the root of Qalithonda's repository,", archive.display());
        eprintln!("or set QALITHONDA_LIB to the folder that has libqalithonda.a");
        process::exit(1);
    }
    println!("cargo:rustc-link-search=native={}", folder.display());
    println!("cargo:rustc-link-lib=static=qalithonda");
}
