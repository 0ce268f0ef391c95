//! Links the static library that `bindings/build` makes, or the one in the folder that NAREPHON_LIBRARY_DIR names.
use std::env;
use std::path::{Path, PathBuf};

const FOLDER: &str = "NAREPHON_LIBRARY_DIR";

/// The repository's folder of libraries.
fn made() -> PathBuf {
    let package = env::var("CARGO_MANIFEST_DIR").expect("cargo sets it");
    let root = Path::new(&package).ancestors().nth(3);
    root.expect("the package is bindings/rust/narephon")
        .join("target/bindings")
}

fn main() {
    println!("cargo::rerun-if-env-changed={FOLDER}");
    let (folder, advice) = match env::var_os(FOLDER) {
        Some(named) => (
            PathBuf::from(named),
            "NAREPHON_LIBRARY_DIR has to be the whole path of the folder that holds it, or not set",
        ),
        None => (
            made(),
            "run bindings/build in the Narephon repository first",
        ),
    };
    let library = folder.join("libnarephon.a");
    println!("cargo::rerun-if-changed={}", library.display());
    if folder.is_absolute() && library.is_file() {
        println!("cargo::rustc-link-search=native={}", folder.display());
    } else {
        println!("cargo::error={} not found: {advice}", library.display());
    }
}
