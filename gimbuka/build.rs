//! Links the static library that `scripts/build exports` writes.

use std::env;
use std::path::{Path, PathBuf};

/// The folder with the library: the one that is named, else the repository's.
fn folder() -> PathBuf {
    env::var_os("GIMBUKA_LIBRARY").map_or_else(
        || {
            let package = env::var_os("CARGO_MANIFEST_DIR").expect("a package's folder, by Cargo");
            Path::new(&package).with_file_name("target").join("staticlib")
        },
        PathBuf::from,
    )
}

fn main() {
    let folder = folder();
    let library = folder.join("libexports.a");
    println!("cargo::rerun-if-env-changed=GIMBUKA_LIBRARY");
    println!("cargo::rerun-if-changed={}", library.display());
    if library.is_file() {
        println!("cargo::rustc-link-search=native={}", folder.display());
        println!("cargo::rustc-link-lib=static=exports");
    } else {
        println!("cargo::error=the proved library is not there: {}", library.display());
        println!(
            "cargo::error=first run `scripts/build exports` at the top of the repository: it proves the library, which takes minutes"
        );
        println!(
            "cargo::error=if the library stands elsewhere, say where: GIMBUKA_LIBRARY=FOLDER cargo .."
        );
    }
}
