//! Links the archive that `shell/build libplain.a` writes.
use std::path::Path;

fn main() {
    let root = Path::new(env!("CARGO_MANIFEST_DIR")).join("..");
    let folder = root.join("target/staticlib");
    println!("cargo:rustc-link-search=native={}", folder.display());
    println!("cargo:rustc-link-lib=static=plain");
    println!("cargo:rerun-if-changed={}", folder.join("libplain.a").display());
}
