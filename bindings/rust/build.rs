//! Links libchanrelout.a: from the directory that CHANRELOUT_LIB names, or from this repository's crates/chanrelout/out,
//! where `rt lib` in crates/chanrelout writes it.

use std::{env, path::PathBuf};

fn main() {
    let own = PathBuf::from(env::var_os("CARGO_MANIFEST_DIR").unwrap()).join("../../crates/chanrelout/out");
    let dir = env::var_os("CHANRELOUT_LIB").map_or(own, PathBuf::from);
    let library = dir.join("libchanrelout.a");
    if !library.is_file() {
        println!("cargo:warning={} is not there: run `rt lib` in crates/chanrelout", library.display());
    }
    println!("cargo:rerun-if-env-changed=CHANRELOUT_LIB");
    println!("cargo:rerun-if-changed={}", library.display());
    println!("cargo:rustc-link-search=native={}", dir.display());
    println!("cargo:rustc-link-lib=static=chanrelout");
}
