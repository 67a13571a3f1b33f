//! Links `libgezdunar.a`: from the directory in GEZDUNAR_LIB, else from the repository's target/staticlib.

use std::path::{Path, PathBuf};
use std::{env, process};

fn directory() -> PathBuf {
    match env::var_os("GEZDUNAR_LIB") {
        Some(named) => PathBuf::from(named),
        None => {
            let manifest = env::var_os("CARGO_MANIFEST_DIR").unwrap_or_default();
            Path::new(&manifest).join("../../target/staticlib")
        }
    }
}

fn main() {
    println!("cargo:rerun-if-env-changed=GEZDUNAR_LIB");
    let directory = directory();
    let directory = directory.canonicalize().unwrap_or(directory);
    let archive = directory.join("libgezdunar.a");
    println!("cargo:rerun-if-changed={}", archive.display());
    if !archive.is_file() {
        eprintln!("There is no {}.", archive.display());
        eprintln!(
            "Run `tools/build_archive` at the repository's root, or name the archive's directory in GEZDUNAR_LIB."
        );
        process::exit(1);
    }
    println!("cargo:rustc-link-search=native={}", directory.display());
    println!("cargo:rustc-link-lib=static=gezdunar");
}
