//! Links the static library. It is looked for in the repository's target/staticlib, or in the directory that
//! KINGLETBED_LIB_DIR names by an absolute path.

use std::path::PathBuf;

fn main() {
    println!("cargo:rerun-if-env-changed=KINGLETBED_LIB_DIR");
    let dir = match std::env::var_os("KINGLETBED_LIB_DIR") {
        Some(dir) => PathBuf::from(dir),
        None => {
            PathBuf::from(std::env::var_os("CARGO_MANIFEST_DIR").expect("cargo sets it")).join("../target/staticlib")
        }
    };
    let library = dir.join("libkingletbed.a");
    println!("cargo:rerun-if-changed={}", library.display());
    if !library.is_file() {
        eprintln!("The static library is not there: {}", library.display());
        eprintln!(
            "Run `tools/build library` at the top of the repository, or name its directory in KINGLETBED_LIB_DIR."
        );
        std::process::exit(1);
    }
    println!("cargo:rustc-link-search=native={}", dir.display());
    println!("cargo:rustc-link-lib=static=kingletbed");
}
