//! Links the static library if the environment variable VQ_LIB_DIR names the directory that holds it.
//! Without the variable the package builds and tests alone.

use std::env;
use std::path::Path;

fn main() {
    println!("cargo:rustc-check-cfg=cfg(gateway_linked)");
    println!("cargo:rerun-if-env-changed=VQ_LIB_DIR");
    println!("cargo:rerun-if-changed=build.rs");
    let Some(directory) = env::var_os("VQ_LIB_DIR") else {
        return;
    };
    println!("cargo:rustc-link-search=native={}", Path::new(&directory).display());
    let archive = Path::new(&directory).join("libvellanquor.a");
    assert!(archive.is_file(), "VQ_LIB_DIR is set, but {} is not there", archive.display());
    println!("cargo:rerun-if-changed={}", archive.display());
    println!("cargo:rustc-link-lib=static=vellanquor");
    println!("cargo:rustc-cfg=gateway_linked");
}
