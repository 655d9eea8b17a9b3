//! Links target/staticlib/libdohvrin.a, which the run command `build` writes.

use std::env;
use std::path::PathBuf;

const FOLDER: &str = "../../target/staticlib";

fn main() {
    let package = env::var_os("CARGO_MANIFEST_DIR").expect("cargo runs this");
    let folder = PathBuf::from(package).join(FOLDER);
    if !folder.join("libdohvrin.a").exists() {
        panic!("no {FOLDER}/libdohvrin.a: run `build` first");
    }
    println!("cargo:rerun-if-changed={FOLDER}/libdohvrin.a");
    println!("cargo:rerun-if-changed=build.rs");
    println!("cargo:rustc-link-search=native={}", folder.display());
    println!("cargo:rustc-link-lib=static=dohvrin");
}
