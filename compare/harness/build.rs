//! With the feature `product`, links the product's static libraries: `bash tools/build capi lot_plan` writes them
//! to target/staticlib of the repository. SWIVELCRANE_LIB names another folder that holds libcapi.a and liblot_plan.a.

use std::env;
use std::path::{Path, PathBuf};

fn main() {
    println!("cargo:rerun-if-env-changed=SWIVELCRANE_LIB");
    let on = |feature: &str| env::var_os(format!("CARGO_FEATURE_{feature}")).is_some();
    if !on("PRODUCT") || on("STANDIN") {
        return;
    }
    let here = env::var("CARGO_MANIFEST_DIR").expect("set by cargo");
    let usual = Path::new(&here).join("../../target/staticlib");
    let folder = env::var_os("SWIVELCRANE_LIB").map_or(usual, PathBuf::from);
    println!("cargo:rustc-link-search=native={}", folder.display());
    for library in ["capi", "lot_plan"] {
        let archive = folder.join(format!("lib{library}.a"));
        assert!(archive.exists(), "{} is missing: run `bash tools/build {library}`", archive.display());
        println!("cargo:rerun-if-changed={}", archive.display());
        println!("cargo:rustc-link-lib=static={library}");
    }
}
