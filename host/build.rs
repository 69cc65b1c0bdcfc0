//! Links the proved library's archive.

use std::env;
use std::path::{Path, PathBuf};

fn main() {
    println!("cargo:rerun-if-env-changed=MITTENHELM_ARCHIVE");
    println!("cargo:rerun-if-changed=build.rs");
    let archive = match env::var_os("MITTENHELM_ARCHIVE") {
        Some(path) if !path.is_empty() => PathBuf::from(path),
        _ => Path::new(env!("CARGO_MANIFEST_DIR")).join("../build/native/libmittenhelm.a"),
    };
    println!("cargo:rerun-if-changed={}", archive.display());
    let archive = archive
        .canonicalize()
        .unwrap_or_else(|_| panic!("there is no archive {}: make it with tools/archive", archive.display()));
    let name = archive.file_name().and_then(|name| name.to_str()?.strip_prefix("lib")?.strip_suffix(".a"));
    let (folder, name) = match (archive.parent(), name) {
        (Some(folder), Some(name)) => (folder, name),
        _ => panic!("the archive {} is not named libNAME.a", archive.display()),
    };
    println!("cargo:rustc-link-search=native={}", folder.display());
    println!("cargo:rustc-link-lib=static={name}");
    // For the test that links a C program.
    println!("cargo:rustc-env=MITTENHELM_ARCHIVE_LINKED={}", archive.display());
}
