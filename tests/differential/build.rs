//! Links the static libraries from the repository's target/staticlib, or from the folder that CALCIVORNE_LIB names.

use std::env;
use std::path::{Path, PathBuf};
use std::process::exit;

fn main() {
    println!("cargo:rerun-if-env-changed=CALCIVORNE_LIB");
    let folder = folder();
    println!("cargo:rustc-link-search=native={}", folder.display());
    for name in ["capi", "forecast", "offers"] {
        let library = folder.join(format!("lib{name}.a"));
        println!("cargo:rerun-if-changed={}", library.display());
        if !library.is_file() {
            eprintln!("There is no {}.", library.display());
            eprintln!("Make it with `tools/archives` in the repository, or name the folder that has all three libraries in CALCIVORNE_LIB.");
            exit(1);
        }
        println!("cargo:rustc-link-lib=static={name}");
    }
}

fn folder() -> PathBuf {
    match env::var_os("CALCIVORNE_LIB") {
        Some(folder) => PathBuf::from(folder),
        None => Path::new(env!("CARGO_MANIFEST_DIR")).join("../../target/staticlib"),
    }
}
