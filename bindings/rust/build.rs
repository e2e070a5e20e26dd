//! Links the library that `bindings/library` writes. The variable
//! JURDDAVIK_LIB names its folder, if it is not in this repository's target/.

use std::{env, path::PathBuf};

fn main() {
    let folder = match env::var_os("JURDDAVIK_LIB") {
        Some(folder) => PathBuf::from(folder),
        None => PathBuf::from(env!("CARGO_MANIFEST_DIR")).join("../../target/staticlib"),
    };
    let library = folder.join("libexports.a");

    println!("cargo:rerun-if-env-changed=JURDDAVIK_LIB");
    println!("cargo:rerun-if-changed={}", library.display());
    println!("cargo:rustc-link-search=native={}", folder.display());
    println!("cargo:rustc-link-lib=static=exports");
    if !library.is_file() {
        println!(
            "cargo:warning={} is missing: run `bindings/library`",
            library.display()
        );
    }
}
