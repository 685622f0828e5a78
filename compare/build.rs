//! Links the proved library where it is: in the folder RUEVAULT_LIB, else in ../crates/kern_ffi/out. Where the latter has none, everything but
//! `reader` and `bench` is built.
use std::path::PathBuf;

fn main() {
    println!("cargo::rustc-check-cfg=cfg(library)");
    println!("cargo::rerun-if-env-changed=RUEVAULT_LIB");
    let here = PathBuf::from(std::env::var("CARGO_MANIFEST_DIR").unwrap());
    let named = std::env::var("RUEVAULT_LIB").ok();
    let folder = here.join(named.as_deref().unwrap_or("../crates/kern_ffi/out"));
    let archive = folder.join("libkern_ffi.a");
    println!("cargo::rerun-if-changed={}", archive.display());
    if archive.is_file() {
        println!("cargo::rustc-cfg=library");
        println!("cargo::rustc-link-search=native={}", folder.display());
        println!("cargo::rustc-link-lib=static=kern_ffi");
    } else if named.is_some() {
        println!("cargo::error=RUEVAULT_LIB names {}, which has no libkern_ffi.a; `rt lib` in crates/kern_ffi makes it in its out folder", folder.display());
    } else {
        println!("cargo::warning={} is not there (`rt lib` in crates/kern_ffi makes it): `reader` and `bench` are left out", archive.display());
    }
}
