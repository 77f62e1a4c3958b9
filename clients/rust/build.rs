//! Links the static libraries `herd` and `herdbook`: from the folder HERD_LIB_DIR, or else from target/staticlib of the repository.

use std::env;
use std::path::PathBuf;

fn main() {
    println!("cargo:rerun-if-env-changed=HERD_LIB_DIR");
    let here = PathBuf::from(env::var_os("CARGO_MANIFEST_DIR").unwrap_or_default());
    let folder = match env::var_os("HERD_LIB_DIR") {
        Some(folder) => PathBuf::from(folder),
        None => here.join("../../target/staticlib"),
    };
    println!("cargo:rustc-link-search=native={}", folder.display());
    for name in ["herdbook", "herd"] {
        let archive = folder.join(format!("lib{name}.a"));
        println!("cargo:rerun-if-changed={}", archive.display());
        if !archive.is_file() {
            eprintln!("herd: there is no {}", archive.display());
            eprintln!("herd: run `tools/archive` in the repository, or set HERD_LIB_DIR to the folder of lib{name}.a");
            std::process::exit(1);
        }
        println!("cargo:rustc-link-lib=static={name}");
    }
}
