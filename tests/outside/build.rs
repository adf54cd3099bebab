//! Links the engine, `libcollector.a`. Its folder is the repository's `target/staticlib`, or the one that the
//! environment variable `SYNC_ENGINE_LIB` says.

use std::env;
use std::path::{Path, PathBuf};

fn main() {
    println!("cargo::rerun-if-env-changed=SYNC_ENGINE_LIB");
    let folder = env::var_os("SYNC_ENGINE_LIB")
        .map(PathBuf::from)
        .unwrap_or_else(|| Path::new(env!("CARGO_MANIFEST_DIR")).join("../../target/staticlib"));
    let archive = folder.join("libcollector.a");
    println!("cargo::rerun-if-changed={}", archive.display());
    if !archive.is_file() {
        println!("cargo::error=the engine's library is missing: {}", archive.display());
    }
    println!("cargo::rustc-link-search=native={}", folder.display());
    println!("cargo::rustc-link-lib=static=collector");
}
