//! Tells cargo to link the static library from `lib` at the root of the repository, where `make lib` writes it. The
//! tests also link archives from `target/staticlib`, where `make parts` writes them.

use std::env;
use std::path::PathBuf;

fn main() {
    let root = PathBuf::from(env::var_os("CARGO_MANIFEST_DIR").unwrap()).join("..");
    let (folder, parts) = (root.join("lib"), root.join("target/staticlib"));
    let library = folder.join("libhubeltxa.a");
    println!("cargo:rerun-if-changed={}", library.display());
    if !library.is_file() {
        eprintln!("{} is missing: run `make lib` at the root of the repository", library.display());
        std::process::exit(1);
    }
    // The first folder that has the library is taken; the other may hold it as well.
    println!("cargo:rustc-link-search=native={}", folder.display());
    println!("cargo:rustc-link-search=native={}", parts.display());
    println!("cargo:rustc-link-lib=static=hubeltxa");
    // A folder that is watched and not there would have the crate built again each time.
    if parts.is_dir() {
        println!("cargo:rerun-if-changed={}", parts.display());
    }
}
