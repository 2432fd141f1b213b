//! Links libwayramesh.a from the folder in WAYRAMESH_LIB_DIR, or else from crates/wayramesh/out of the repository.

use std::path::PathBuf;
use std::{env, process};

fn main() {
    println!("cargo:rerun-if-env-changed=WAYRAMESH_LIB_DIR");
    let default = PathBuf::from(env!("CARGO_MANIFEST_DIR")).join("../../crates/wayramesh/out");
    let folder = env::var_os("WAYRAMESH_LIB_DIR").map_or(default, PathBuf::from);
    let archive = folder.join("libwayramesh.a");
    println!("cargo:rerun-if-changed={}", archive.display());
    if !archive.exists() {
        eprintln!("{} is missing: make it with `rt lib` in crates/wayramesh", archive.display());
        process::exit(1);
    }
    println!("cargo:rustc-link-search=native={}", folder.display());
    println!("cargo:rustc-link-lib=static=wayramesh");
}
