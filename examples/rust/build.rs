//! Links libexports.a, which `rt lib` writes in crates/exports; SEMURYEON_LIB_DIR names another folder.

use std::env;
use std::path::PathBuf;

fn main() {
    let beside = PathBuf::from(env::var_os("CARGO_MANIFEST_DIR").unwrap()).join("../../crates/exports/out");
    let folder = env::var_os("SEMURYEON_LIB_DIR").map_or(beside, PathBuf::from);
    println!("cargo:rustc-link-search=native={}", folder.display());
    println!("cargo:rustc-link-lib=static=exports");
    println!("cargo:rerun-if-changed={}", folder.join("libexports.a").display());
    println!("cargo:rerun-if-env-changed=SEMURYEON_LIB_DIR");
}
