//! Links the proved static library, which `rt lib` in crates/kern_ffi makes.
use std::path::{Path, PathBuf};
use std::{env, process};

/// The folder of the library: RUEVAULT_LIB, else crates/kern_ffi/out beside the package.
fn folder() -> PathBuf {
    let package = PathBuf::from(env::var_os("CARGO_MANIFEST_DIR").expect("cargo sets CARGO_MANIFEST_DIR"));
    match env::var_os("RUEVAULT_LIB") {
        Some(given) => package.join(given),
        None => package.join("../crates/kern_ffi/out"),
    }
}

fn absent(library: &Path) -> ! {
    eprintln!("error: the proved library is not there: {}", library.display());
    eprintln!("Make it with `rt lib` in crates/kern_ffi, or set RUEVAULT_LIB to the folder that has libkern_ffi.a.");
    process::exit(1);
}

fn main() {
    let folder = folder();
    let library = folder.join("libkern_ffi.a");
    println!("cargo:rerun-if-env-changed=RUEVAULT_LIB");
    println!("cargo:rerun-if-changed={}", library.display());
    if !library.is_file() {
        absent(&library);
    }
    println!("cargo:rustc-link-search=native={}", folder.display());
    println!("cargo:rustc-link-lib=static=kern_ffi");
}
