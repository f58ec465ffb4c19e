//! Links the static libraries: in the folder ADS_LIB_DIR, else in target/staticlib of the repository. `kernels` has inner
//! functions of the library, which it doesn't export.

use std::env;
use std::path::{Path, PathBuf};

fn main() {
    let folder = match env::var_os("ADS_LIB_DIR") {
        Some(folder) => PathBuf::from(folder),
        None => Path::new(&env::var_os("CARGO_MANIFEST_DIR").expect("cargo sets it")).join("../../target/staticlib"),
    };
    println!("cargo:rerun-if-env-changed=ADS_LIB_DIR");
    println!("cargo:rustc-link-search=native={}", folder.display());
    for library in ["ads", "kernels"] {
        let archive = folder.join(format!("lib{library}.a"));
        if !archive.is_file() {
            panic!("no {}: `tools/staticlib {library}` first, or name its folder in ADS_LIB_DIR", archive.display());
        }
        println!("cargo:rerun-if-changed={}", archive.display());
        println!("cargo:rustc-link-lib=static={library}");
    }
}
