//! Links libstelomavunt.a, the proved functions: from STELOMAVUNT_LIB_DIR if it is set, else from where `./archive` writes it.
use std::env;
use std::path::{Path, PathBuf};

const ARCHIVE: &str = "libstelomavunt.a";

fn main() {
    println!("cargo::rerun-if-env-changed=STELOMAVUNT_LIB_DIR");
    let manifest = env::var_os("CARGO_MANIFEST_DIR").expect("cargo sets it");
    let dir = match env::var_os("STELOMAVUNT_LIB_DIR") {
        Some(dir) => PathBuf::from(dir),
        None => Path::new(&manifest).join("../../target/staticlib"),
    };
    let archive = dir.join(ARCHIVE);
    println!("cargo::rerun-if-changed={}", archive.display());
    if !archive.is_file() {
        println!(
            "cargo::error={} is missing: run `./archive` at the top of the repository, or set STELOMAVUNT_LIB_DIR to the folder that has {ARCHIVE}",
            archive.display()
        );
        return;
    }
    println!("cargo::rustc-link-search=native={}", dir.display());
    println!("cargo::rustc-link-lib=static=stelomavunt");
}
