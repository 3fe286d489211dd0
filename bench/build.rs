//! With the feature `product`, hands the product's static library and the kit's to the linker, for the program that times both.

use std::env;
use std::path::PathBuf;

fn main() {
    println!("cargo::rerun-if-env-changed=RATTLE_KIT");
    println!("cargo::rerun-if-env-changed=SHEET_LIBRARY");
    if env::var_os("CARGO_FEATURE_PRODUCT").is_none() {
        return;
    }
    let repository = PathBuf::from(env::var_os("CARGO_MANIFEST_DIR").unwrap()).join("..");
    let sheet = match env::var_os("SHEET_LIBRARY") {
        Some(path) => PathBuf::from(path),
        None => repository.join("target/staticlib/libsheet.a"),
    };
    let kit = PathBuf::from(env::var_os("RATTLE_KIT").unwrap_or_else(|| "/opt/rattle".into()));
    for library in [sheet, kit.join("c/liblibc_c.a")] {
        println!("cargo::rerun-if-changed={}", library.display());
        println!("cargo::rustc-link-arg-bin=times={}", library.display());
    }
}
