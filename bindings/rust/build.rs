//! Links `librlp.a`, which `bindings/build` makes. `RLP_LIBRARY_DIR` names its folder.

use std::env;

fn main() {
    let here = env::var("CARGO_MANIFEST_DIR").unwrap();
    let folder = env::var("RLP_LIBRARY_DIR").unwrap_or(format!("{here}/../../out/bindings/lib"));
    println!("cargo:rerun-if-env-changed=RLP_LIBRARY_DIR");
    println!("cargo:rerun-if-changed={folder}/librlp.a");
    println!("cargo:rustc-link-search=native={folder}");
    println!("cargo:rustc-link-lib=static=rlp");
}
