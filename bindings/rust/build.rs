//! Finds the archive of the proved library.

use std::env;
use std::path::{Path, PathBuf};
use std::process::exit;

fn main() {
    println!("cargo:rerun-if-env-changed=RELAY_ARCHIVE");
    let archive = archive();
    println!("cargo:rerun-if-changed={}", archive.display());
    println!("cargo:rustc-env=RELAY_ARCHIVE_FOUND={}", archive.display());
    let (Some(folder), Some(name)) = (archive.parent(), archive.file_name()) else {
        panic!("{} names no file", archive.display());
    };
    println!("cargo:rustc-link-search=native={}", folder.display());
    println!(
        "cargo:rustc-link-lib=static:+verbatim={}",
        name.to_string_lossy()
    );
}

/// RELAY_ARCHIVE, or what bindings/archive writes.
fn archive() -> PathBuf {
    let crate_folder = env::var_os("CARGO_MANIFEST_DIR").expect("cargo runs this");
    let (archive, advice) = match env::var_os("RELAY_ARCHIVE") {
        Some(path) => (PathBuf::from(path), "RELAY_ARCHIVE names it"),
        None => (
            Path::new(&crate_folder).join("../../build/librelay.a"),
            "run bindings/archive, or set RELAY_ARCHIVE to its path",
        ),
    };
    archive.canonicalize().unwrap_or_else(|error| {
        eprintln!("no archive {}: {error}; {advice}", archive.display());
        exit(1);
    })
}
