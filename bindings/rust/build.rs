//! Links the proved library. It is looked for where `make library` writes it, or in the
//! folder that `TEVALUMI_LIB_DIR` names.

use std::env;
use std::path::PathBuf;

fn main() {
    println!("cargo:rerun-if-env-changed=TEVALUMI_LIB_DIR");
    let dir = match env::var_os("TEVALUMI_LIB_DIR") {
        Some(dir) => PathBuf::from(dir),
        // The code is for x86-64; `ci/linked cargo` of the repository builds for it elsewhere.
        None => PathBuf::from(env::var_os("CARGO_MANIFEST_DIR").expect("cargo sets it"))
            .join("../../target/staticlib"),
    };
    let library = dir.join("libtevalumi.a");
    // Only a warning: pages and lints need no library.
    if !library.is_file() {
        println!(
            "cargo:warning={} isn't there: run `make library`, or set TEVALUMI_LIB_DIR",
            library.display()
        );
    }
    println!("cargo:rustc-link-search=native={}", dir.display());
    println!("cargo:rustc-link-lib=static=tevalumi");
    println!("cargo:rerun-if-changed={}", library.display());
}
