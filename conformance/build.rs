//! Links the library that only the benchmark times, where it is asked for; the crate dagmuize links the library under test.

use std::{env, path::Path};

fn main() {
    println!("cargo:rerun-if-changed=build.rs");
    if env::var_os("CARGO_FEATURE_ONE_BY_ONE").is_none() {
        return;
    }
    let here = env::var("CARGO_MANIFEST_DIR").expect("cargo names the package's folder");
    let folder = Path::new(&here).join("../crates/one_by_one/out");
    let archive = folder.join("libone_by_one.a");
    println!("cargo:rerun-if-changed={}", archive.display());
    assert!(archive.exists(), "crates/one_by_one/out/libone_by_one.a is missing: `rt lib` in crates/one_by_one writes it");
    println!("cargo:rustc-link-search=native={}", folder.display());
    println!("cargo:rustc-link-lib=static=one_by_one");
}
