//! Links libtisarqluk.a where the feature `library` asks for it.

use std::path::PathBuf;

fn main() {
    println!("cargo:rerun-if-env-changed=TISARQLUK_LIB_DIR");
    if std::env::var_os("CARGO_FEATURE_LIBRARY").is_none() {
        return;
    }
    let folder = match std::env::var_os("TISARQLUK_LIB_DIR") {
        Some(folder) => PathBuf::from(folder),
        None => PathBuf::from(env!("CARGO_MANIFEST_DIR")).join("../target/staticlib"),
    };
    let archive = folder.join("libtisarqluk.a");
    println!("cargo:rerun-if-changed={}", archive.display());
    if !archive.is_file() {
        eprintln!("There is no {}.", archive.display());
        eprintln!("Make it with `./build lib` at the root of the repository,");
        eprintln!("or name its folder in the environment variable TISARQLUK_LIB_DIR.");
        std::process::exit(1);
    }
    println!("cargo:rustc-env=TISARQLUK_ARCHIVE={}", archive.display());
    println!("cargo:rustc-link-search=native={}", folder.display());
    println!("cargo:rustc-link-lib=static=tisarqluk");
}
