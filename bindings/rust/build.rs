//! Links the static library of the proved code, which `tools/library` writes. It is looked for in the folder that the
//! environment variable EML_LIB_DIR names, else in the repository that has this package.

use std::path::PathBuf;

fn main() {
    println!("cargo:rerun-if-env-changed=EML_LIB_DIR");
    let package = std::env::var("CARGO_MANIFEST_DIR").expect("cargo sets it");
    let folder = match std::env::var_os("EML_LIB_DIR") {
        Some(folder) => PathBuf::from(folder),
        None => PathBuf::from(package).join("../../target/staticlib"),
    };
    let archive = folder.join("libeml.a");
    println!("cargo:rerun-if-changed={}", archive.display());
    if !archive.is_file() {
        eprintln!("{} is missing.", archive.display());
        eprintln!("Run `tools/library` at the root of the repository,");
        eprintln!("or name the folder that has libeml.a in EML_LIB_DIR.");
        std::process::exit(1);
    }
    println!("cargo:rustc-link-search=native={}", folder.display());
    println!("cargo:rustc-link-lib=static=eml");
}
