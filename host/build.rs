//! Finds the archive that `rt lib` writes in crates/awirbesh and links it.
use std::{env, path::PathBuf};

fn main() {
    println!("cargo:rerun-if-env-changed=AWIRBESH_ARCHIVE_DIR");
    let folder = match env::var_os("AWIRBESH_ARCHIVE_DIR") {
        Some(given) => PathBuf::from(given),
        None => PathBuf::from(env::var_os("CARGO_MANIFEST_DIR").unwrap()).join("../crates/awirbesh/out"),
    };
    let archive = folder.join("libawirbesh.a");
    assert!(
        archive.is_file(),
        "{} is missing: run `rt lib` in crates/awirbesh, or set AWIRBESH_ARCHIVE_DIR",
        archive.display()
    );
    println!("cargo:rerun-if-changed={}", archive.display());
    println!("cargo:rustc-link-search=native={}", folder.canonicalize().unwrap().display());
    println!("cargo:rustc-link-lib=static=awirbesh");
}
