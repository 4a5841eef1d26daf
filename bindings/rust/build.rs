//! Links the proved static library, `libabi.a`, from the folder that PROVED_LIBRARY names, else
//! from the repository's target folder.

use std::env;
use std::path::PathBuf;

const VARIABLE: &str = "PROVED_LIBRARY";

fn main() {
    println!("cargo::rerun-if-env-changed={VARIABLE}");
    let manifest = PathBuf::from(env::var_os("CARGO_MANIFEST_DIR").unwrap());
    let folder = match env::var_os(VARIABLE) {
        Some(given) => manifest.join(given),
        None => manifest.join("../../target/staticlib"),
    };
    let archive = folder.join("libabi.a");
    println!("cargo::rerun-if-changed={}", archive.display());
    if !archive.is_file() {
        println!(
            "cargo::error={} is missing: run `tools/staticlib` in the repository's root first",
            archive.display()
        );
        return;
    }
    println!("cargo::rustc-link-search=native={}", folder.display());
    println!("cargo::rustc-link-lib=static=abi");
}
