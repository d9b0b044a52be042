//! Links the library that is proved.

use std::{env, path::Path};

fn main() {
    println!("cargo:rerun-if-changed=build.rs");
    let here = env::var("CARGO_MANIFEST_DIR").expect("cargo names the package's folder");
    let folder = Path::new(&here).join("../target");
    let archive = folder.join("libdagmuize.a");
    println!("cargo:rerun-if-changed={}", archive.display());
    assert!(archive.exists(), "target/libdagmuize.a is missing: ./library writes it");
    println!("cargo:rustc-link-search=native={}", folder.display());
    println!("cargo:rustc-link-lib=static=dagmuize");
}
