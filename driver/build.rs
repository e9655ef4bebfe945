//! Links the proved library, which `make library` writes, or the one in the folder that `TEVALUMI_LIB_DIR` names.
use std::env;

fn main() {
    println!("cargo:rerun-if-env-changed=TEVALUMI_LIB_DIR");
    let root = env::var("CARGO_MANIFEST_DIR").expect("cargo sets it");
    let dir = env::var("TEVALUMI_LIB_DIR").unwrap_or(format!("{root}/../target/staticlib"));
    println!("cargo:rustc-link-search=native={dir}");
    println!("cargo:rustc-link-lib=static=tevalumi");
    println!("cargo:rerun-if-changed={dir}/libtevalumi.a");
}
