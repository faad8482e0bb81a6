//! Links the static library that `rt lib` writes in the folder of the crate `tegzhumbi_c`.

use std::env;
use std::path::{Path, PathBuf};
use std::process::exit;

const LIBRARY: &str = "tegzhumbi_c";

/// A folder of this name in the environment is taken instead of the repository's own.
const FOLDER_VARIABLE: &str = "TEGZHUMBI_LIBRARY";

fn main() {
    println!("cargo:rerun-if-changed=build.rs");
    println!("cargo:rerun-if-env-changed={FOLDER_VARIABLE}");
    let archive = folder().join(format!("lib{LIBRARY}.a"));
    println!("cargo:rerun-if-changed={}", archive.display());
    // The linker works in another folder than this program, so it is given the whole path.
    let Ok(found) = archive.canonicalize() else {
        explain_missing(&archive);
        exit(1);
    };
    let found_in = found.parent().expect("a file is in a folder");
    println!("cargo:rustc-link-search=native={}", found_in.display());
    println!("cargo:rustc-link-lib=static={LIBRARY}");
}

fn folder() -> PathBuf {
    let repository = Path::new(env!("CARGO_MANIFEST_DIR")).join("../..");
    match env::var_os(FOLDER_VARIABLE) {
        Some(folder) => PathBuf::from(folder),
        None => repository.join(format!("crates/{LIBRARY}/out")),
    }
}

fn explain_missing(archive: &Path) {
    eprintln!("There is no {}.", archive.display());
    eprintln!(
        "Run `rt lib` in the repository's folder crates/{LIBRARY}: it proves the library"
    );
    eprintln!("and writes it to the folder out there.");
    eprintln!("If it lies elsewhere, set {FOLDER_VARIABLE} to its folder.");
}
