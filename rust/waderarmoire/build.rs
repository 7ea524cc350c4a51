//! Finds the static library of the proved planner: in the folder named by `WADERARMOIRE_LIB_DIR`,
//! or in `target/staticlib` at the root of the repository.

use std::env;
use std::path::{Path, PathBuf};
use std::process::exit;

fn main() {
    println!("cargo::rerun-if-env-changed=WADERARMOIRE_LIB_DIR");
    let folder = env::var_os("WADERARMOIRE_LIB_DIR").map_or_else(default_folder, PathBuf::from);
    let archive = folder.join("libwaderarmoire.a");
    println!("cargo::rerun-if-changed={}", archive.display());
    if !archive.is_file() {
        eprintln!(
            "{} is missing: build it with `scripts/build waderarmoire`, \
             or name its folder in WADERARMOIRE_LIB_DIR",
            archive.display()
        );
        exit(1);
    }
    println!("cargo::rustc-link-search=native={}", folder.display());
    println!("cargo::rustc-link-lib=static=waderarmoire");
}

fn default_folder() -> PathBuf {
    let package = env::var_os("CARGO_MANIFEST_DIR").unwrap_or_default();
    Path::new(&package).join("../../target/staticlib")
}
