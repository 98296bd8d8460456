//! Finds the static library: in the folder that UMLAZGRIN_LIB names, else where ../build puts it.

use std::env;
use std::path::PathBuf;

fn main() {
    println!("cargo:rerun-if-env-changed=UMLAZGRIN_LIB");
    let folder = match env::var_os("UMLAZGRIN_LIB") {
        Some(folder) => PathBuf::from(folder),
        None => PathBuf::from(env::var_os("CARGO_MANIFEST_DIR").unwrap()).join("../target"),
    };
    let archive = folder.join("libumlazgrin.a");
    if !archive.is_file() {
        panic!("{} is not there: run bindings/build, or name its folder in UMLAZGRIN_LIB", archive.display());
    }
    // The library is x86-64 code, whatever machine it was proved on.
    if env::var("CARGO_CFG_TARGET_ARCH").as_deref() != Ok("x86_64") {
        panic!("the static library links into x86-64 programs only: build with --target x86_64-unknown-linux-gnu");
    }
    println!("cargo:rerun-if-changed={}", archive.display());
    println!("cargo:rustc-link-search=native={}", folder.display());
    println!("cargo:rustc-link-lib=static=umlazgrin");
}
