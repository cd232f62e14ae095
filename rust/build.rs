//! Links the proved product, which `tools/build exports_c` has written beside this package.

use std::env;
use std::path::PathBuf;
use std::process::exit;

fn main() {
    let Some(package) = env::var_os("CARGO_MANIFEST_DIR") else {
        eprintln!("CARGO_MANIFEST_DIR is not set: build this package with cargo");
        exit(1);
    };
    let folder = PathBuf::from(package).join("../target/staticlib");
    let archive = folder.join("libexports.a");
    println!("cargo:rerun-if-changed=build.rs");
    println!("cargo:rerun-if-changed={}", archive.display());
    if !archive.is_file() {
        eprintln!("{} is missing: run `tools/build exports_c` first", archive.display());
        exit(1);
    }
    println!("cargo:rustc-link-search=native={}", folder.display());
    println!("cargo:rustc-link-lib=static=exports");
}
