//! Says where the compiled library lies.

use std::env;
use std::path::PathBuf;

/// The folder named by PIPPINTERM_LIB (its whole path), or else ../../crates/capi/out.
fn folder() -> PathBuf {
    if let Some(named) = env::var_os("PIPPINTERM_LIB") {
        return PathBuf::from(named);
    }
    let here = env::var_os("CARGO_MANIFEST_DIR").expect("the folder of this crate");
    PathBuf::from(here).join("../../crates/capi/out")
}

fn main() {
    let folder = folder();
    let archive = folder.join("libcapi.a");
    if !archive.exists() {
        println!("cargo:warning=there is no {}", archive.display());
    }
    println!("cargo:rerun-if-env-changed=PIPPINTERM_LIB");
    println!("cargo:rerun-if-changed={}", archive.display());
    println!("cargo:rustc-link-search=native={}", folder.display());
    println!("cargo:rustc-link-lib=static=capi");
}
