//! Links libakmuzrel.a from the folder that AKMUZREL_LIB names, by default the one that `rt lib` writes
//! to. `bindings/rust/run` makes the library on x86-64 and on Arm.
use std::env;
use std::path::PathBuf;

fn main() {
    let here = PathBuf::from(env::var("CARGO_MANIFEST_DIR").expect("cargo names the manifest's folder"));
    let lib = env::var_os("AKMUZREL_LIB").map_or(here.join("../../crates/akmuzrel/out"), PathBuf::from);
    println!("cargo:rerun-if-env-changed=AKMUZREL_LIB");
    println!("cargo:rerun-if-changed={}", lib.join("libakmuzrel.a").display());
    println!("cargo:rustc-link-search=native={}", lib.display());
    println!("cargo:rustc-link-lib=static=akmuzrel");
}
