//! Links the proved archive. `DOLJURVEN_LIB` names another one than the one that `tools/build doljurven` writes.

use std::{env, path::PathBuf};

fn main() {
    println!("cargo:rerun-if-env-changed=DOLJURVEN_LIB");
    let package = PathBuf::from(env::var("CARGO_MANIFEST_DIR").unwrap());
    let archive = match env::var("DOLJURVEN_LIB") {
        Ok(path) => PathBuf::from(path),
        Err(_) => package.join("../target/staticlib/libdoljurven.a"),
    };
    let archive = archive
        .canonicalize()
        .unwrap_or_else(|_| panic!("{} is not there: run `tools/build doljurven` first", archive.display()));
    println!("cargo:rerun-if-changed={}", archive.display());
    println!("cargo:rustc-link-search=native={}", archive.parent().unwrap().display());
    println!("cargo:rustc-link-lib=static=doljurven");
}
