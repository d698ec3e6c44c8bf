//! With the feature `archive`: link the proved planner's static library, which `bin/build planner` writes. The
//! environment's PROVED_LIB may name another.

use std::path::PathBuf;

const ARCHIVE: &str = "../target/staticlib/libplanner.a";

fn main() {
    println!("cargo:rerun-if-env-changed=PROVED_LIB");
    if std::env::var_os("CARGO_FEATURE_ARCHIVE").is_none() {
        return;
    }
    let archive = PathBuf::from(std::env::var_os("PROVED_LIB").unwrap_or_else(|| ARCHIVE.into()));
    let archive = archive.canonicalize().expect("the static library: bin/build planner writes it");
    let stem = archive.file_stem().and_then(|s| s.to_str()).expect("a library's name");
    let name = stem.strip_prefix("lib").expect("a library's name starts with lib");
    println!("cargo:rerun-if-changed={}", archive.display());
    println!("cargo:rustc-link-search=native={}", archive.parent().unwrap().display());
    println!("cargo:rustc-link-lib=static={name}");
}
