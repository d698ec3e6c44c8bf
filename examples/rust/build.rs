//! Links the planner's static library, which bin/build planner writes.

fn main() {
    let folder = std::path::Path::new(env!("CARGO_MANIFEST_DIR")).join("../../target/staticlib");
    let folder = folder.canonicalize().expect("the static library: bin/build planner writes it");
    println!("cargo:rerun-if-changed={}", folder.join("libplanner.a").display());
    println!("cargo:rustc-link-search=native={}", folder.display());
    println!("cargo:rustc-link-lib=static=planner");
}
