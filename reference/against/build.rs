//! Links `libhub_ffi.a`, which `tools/build archive` writes to `target/staticlib` of the repository. The
//! variable HUB_ARCHIVE names another folder to take it from; a shared library `libhub_ffi.so` that stands there
//! alone serves too, so that the programs can be run with one after another (trial/run).

use std::path::PathBuf;

fn main() {
    println!("cargo:rerun-if-env-changed=HUB_ARCHIVE");
    let package = PathBuf::from(std::env::var("CARGO_MANIFEST_DIR").expect("cargo sets it"));
    let folder = match std::env::var("HUB_ARCHIVE") {
        Ok(named) => PathBuf::from(named),
        Err(_) => package.join("../../target/staticlib"),
    };
    let (archive, shared) = (folder.join("libhub_ffi.a"), folder.join("libhub_ffi.so"));
    println!("cargo:rerun-if-changed={}", archive.display());
    println!("cargo:rustc-link-search=native={}", folder.display());
    if !archive.exists() && shared.exists() {
        println!("cargo:rerun-if-changed={}", shared.display());
        println!("cargo:rustc-link-lib=dylib=hub_ffi");
        return;
    }
    if !archive.exists() {
        println!("cargo:warning={} is not there: tools/build archive writes it", archive.display());
    }
    println!("cargo:rustc-link-lib=static=hub_ffi");
}
