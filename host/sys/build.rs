//! Finds the proved archive and links it: in the folder that `PHUYURIK_ARCHIVE` names, or else where
//! `make archive` puts it. Nothing is built here.
use std::path::{Path, PathBuf};
use std::{env, process};

/// The folder to look in. A relative path is one from `host/`, wherever cargo was called.
fn folder() -> PathBuf {
    let package = PathBuf::from(env::var_os("CARGO_MANIFEST_DIR").unwrap_or_default());
    let host = package.parent().unwrap_or(&package);
    match env::var_os("PHUYURIK_ARCHIVE") {
        Some(folder) if !folder.is_empty() => host.join(folder),
        _ => host.parent().unwrap_or(host).join("target/staticlib"),
    }
}

fn link(folder: &Path, archive: &Path) {
    println!("cargo:rustc-link-search=native={}", folder.display());
    println!("cargo:rustc-link-lib=static=phuyurik");
    println!("cargo:rerun-if-env-changed=PHUYURIK_ARCHIVE");
    println!("cargo:rerun-if-changed={}", archive.display());
}

fn main() {
    let folder = folder();
    let archive = folder.join("libphuyurik.a");
    if !archive.is_file() {
        eprintln!(
            "there is no libphuyurik.a in {}: run `make archive` in the repository, or let \
             PHUYURIK_ARCHIVE name the folder that has it",
            folder.display()
        );
        process::exit(1);
    }
    link(&folder, &archive);
}
