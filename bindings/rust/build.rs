//! Links libcapi.a, the archive that the repository's `shell/build libcapi.a` writes: from the folder that ROCKER_ARCHIVE_DIR names, else
//! from the repository's target/staticlib.
use std::env;
use std::path::{Path, PathBuf};

fn main() {
    let own = || Path::new(env!("CARGO_MANIFEST_DIR")).join("../../target/staticlib");
    let folder = env::var_os("ROCKER_ARCHIVE_DIR").map_or_else(own, PathBuf::from);
    let archive = folder.join("libcapi.a");
    println!("cargo:rerun-if-env-changed=ROCKER_ARCHIVE_DIR");
    println!("cargo:rerun-if-changed={}", archive.display());
    if !archive.exists() {
        println!("cargo:warning={} is not there; the repository's shell/build libcapi.a writes it", archive.display());
    }
    println!("cargo:rustc-link-search=native={}", folder.display());
    println!("cargo:rustc-link-lib=static=capi");
}
