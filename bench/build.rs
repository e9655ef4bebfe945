//! Compiles `stack.c`, with the feature `counts` also `counts.c`, and with the features `glpk`, `clp` and `lpsolve` the shims over these C libraries, and links them.
//! With the feature `sums`: links the two sides of the sum behind R.

use std::env;
use std::path::PathBuf;
use std::process::Command;

/// A peer's feature, and the libraries that its shim needs.
const PEERS: [(&str, &[&str]); 3] = [
    ("glpk", &["glpk"]),
    ("clp", &["Clp"]),
    ("lpsolve", &["lpsolve55", "colamd", "dl"]),
];

fn main() {
    println!("cargo:rerun-if-changed=src");
    let has =
        |feature: &str| env::var_os(format!("CARGO_FEATURE_{}", feature.to_uppercase())).is_some();
    if has("sums") {
        println!("cargo:rustc-link-lib=static=sums");
    }
    shim("stack");
    if has("counts") {
        shim("counts");
    }
    for (peer, libraries) in PEERS {
        if has(peer) {
            shim(peer);
            for library in libraries {
                println!("cargo:rustc-link-lib={library}");
            }
        }
    }
}

fn shim(name: &str) {
    let out = PathBuf::from(env::var_os("OUT_DIR").expect("cargo sets it"));
    let object = out.join(format!("{name}.o"));
    let cc = match env::var("TARGET") == env::var("HOST") {
        true => "cc",
        false => "x86_64-linux-gnu-gcc",
    };
    run(Command::new(cc)
        .args(["-O2", "-Wall", "-Werror", "-c", "-o"])
        .arg(&object)
        .arg(format!("src/{name}.c")));
    let archive = out.join(format!("libbench_{name}.a"));
    run(Command::new("ar").arg("crs").arg(&archive).arg(&object));
    println!("cargo:rustc-link-search=native={}", out.display());
    println!("cargo:rustc-link-lib=static=bench_{name}");
}

fn run(command: &mut Command) {
    let status = command.status().expect("cc and ar are there");
    assert!(status.success(), "{command:?}");
}
