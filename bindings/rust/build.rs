//! Links libexports.a, from the folder named by JUWENFO_ARCHIVE or else from the repository's crates/exports/out, and takes the version from the header.
use std::path::PathBuf;

fn main() {
    let here = PathBuf::from(std::env::var("CARGO_MANIFEST_DIR").unwrap());
    let folder = std::env::var("JUWENFO_ARCHIVE").map_or(here.join("../../crates/exports/out"), PathBuf::from);
    let archive = folder.join("libexports.a");
    assert!(archive.exists(), "{} is missing: make it with `rt lib` in crates/exports, or name its folder in JUWENFO_ARCHIVE", archive.display());
    println!("cargo:rustc-link-search=native={}", folder.display());
    println!("cargo:rustc-link-lib=static=exports");
    println!("cargo:rerun-if-changed={}", archive.display());
    println!("cargo:rerun-if-env-changed=JUWENFO_ARCHIVE");

    let header = here.join("../../include/juwenfo.h");
    let text = std::fs::read_to_string(&header).expect("include/juwenfo.h cannot be read");
    let (_, version) = text.split_once("#define JUWENFO_VERSION \"").expect("include/juwenfo.h has no version");
    println!("cargo:rustc-env=JUWENFO_VERSION={}", version.split('"').next().unwrap());
    println!("cargo:rerun-if-changed={}", header.display());
}
