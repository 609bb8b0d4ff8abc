// Links target/staticlib/libkusikhut.a of this repository, which `tools/library` writes;
// KUSIKHUT_LIB names another folder.
use std::{env, path::PathBuf};

fn main() {
    println!("cargo:rerun-if-env-changed=KUSIKHUT_LIB");
    let here = PathBuf::from(env::var("CARGO_MANIFEST_DIR").expect("cargo sets it"));
    let folder = match env::var("KUSIKHUT_LIB") {
        Ok(named) => PathBuf::from(named),
        Err(_) => here.join("../../target/staticlib"),
    };
    println!("cargo:rerun-if-changed={}", folder.join("libkusikhut.a").display());
    println!("cargo:rustc-link-search=native={}", folder.display());
    println!("cargo:rustc-link-lib=static=kusikhut");
}
