//! Links libads.a: from the folder ADS_LIB_DIR, else from target/staticlib of the repository.
use std::env;
use std::path::{Path, PathBuf};
use std::process::exit;

fn main() {
    let folder = match env::var_os("ADS_LIB_DIR") {
        Some(folder) => PathBuf::from(folder),
        None => Path::new(env!("CARGO_MANIFEST_DIR")).join("../target/staticlib"),
    };
    let archive = folder.join("libads.a");
    println!("cargo:rerun-if-env-changed=ADS_LIB_DIR");
    println!("cargo:rerun-if-changed={}", archive.display());
    if !archive.is_file() {
        eprintln!("there is no {}", archive.display());
        eprintln!("run `make` in the repository to build it, or name the folder that has it in ADS_LIB_DIR");
        exit(1);
    }
    println!("cargo:rustc-link-search=native={}", folder.display());
    println!("cargo:rustc-link-lib=static=ads");
}
