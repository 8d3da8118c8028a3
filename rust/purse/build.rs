//! Links `libcapi.a`, the proved store, `libloadapi.a`, its loads, and `libconvertapi.a`, the conversions. Their folder is
//! taken from PURSE_LIB, else it is `target/staticlib` of the repository.

use std::env;
use std::path::PathBuf;

fn main() {
    let here = PathBuf::from(env::var("CARGO_MANIFEST_DIR").unwrap());
    let folder = match env::var_os("PURSE_LIB") {
        Some(folder) => PathBuf::from(folder),
        None => here.join("../../target/staticlib"),
    };
    println!("cargo:rerun-if-env-changed=PURSE_LIB");
    println!("cargo:rustc-link-search=native={}", folder.display());
    for name in ["capi", "loadapi", "convertapi"] {
        let library = folder.join(format!("lib{name}.a"));
        println!("cargo:rerun-if-changed={}", library.display());
        if !library.is_file() {
            println!("cargo:warning={} is missing: build the static libraries first (rust/README.md)", library.display());
        }
        println!("cargo:rustc-link-lib=static={name}");
    }
}
