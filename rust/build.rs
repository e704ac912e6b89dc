//! Links libcodegen.a from the folder LUCIA_CODEGEN_LIB, else from ../target/staticlib.

use std::{env, path::PathBuf};

fn main() {
    println!("cargo::rerun-if-env-changed=LUCIA_CODEGEN_LIB");
    let here = PathBuf::from(env::var_os("CARGO_MANIFEST_DIR").unwrap_or_default());
    let folder = env::var_os("LUCIA_CODEGEN_LIB")
        .map_or_else(|| here.join("../target/staticlib"), PathBuf::from);
    let library = folder.join("libcodegen.a");
    println!("cargo::rerun-if-changed={}", library.display());
    if !library.is_file() {
        println!(
            "cargo::warning=no {}: run `tools/staticlib`, or set LUCIA_CODEGEN_LIB",
            library.display()
        );
    }
    println!("cargo::rustc-link-search=native={}", folder.display());
    println!("cargo::rustc-link-lib=static=codegen");
}
