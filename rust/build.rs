//! Finds libtisarqluk.a, or has it made, and says what is missing if it cannot.

use std::path::{Path, PathBuf};
use std::process::Command;

fn main() {
    println!("cargo:rerun-if-changed=build.rs");
    println!("cargo:rerun-if-env-changed=TISARQLUK_LIB_DIR");
    let folder = find_folder().unwrap_or_else(|missing| {
        eprintln!("{missing}");
        std::process::exit(1);
    });
    println!("cargo:rerun-if-changed={}", archive_in(&folder).display());
    println!("cargo:rustc-link-search=native={}", folder.display());
    println!("cargo:rustc-link-lib=static=tisarqluk");
}

fn archive_in(folder: &Path) -> PathBuf {
    folder.join("libtisarqluk.a")
}

/// The folder that the environment names, else the repository's own, where
/// `./build` makes the archive if it is not there yet.
fn find_folder() -> Result<PathBuf, String> {
    if let Some(folder) = std::env::var_os("TISARQLUK_LIB_DIR").map(PathBuf::from) {
        return if archive_in(&folder).is_file() {
            Ok(folder)
        } else {
            Err(format!(
                "TISARQLUK_LIB_DIR is {0}, but there is no libtisarqluk.a in it.",
                folder.display()
            ))
        };
    }
    let root = Path::new(env!("CARGO_MANIFEST_DIR")).join("..");
    let folder = root.join("target/staticlib");
    if !archive_in(&folder).is_file() {
        make_archive(&root)?;
    }
    if archive_in(&folder).is_file() {
        Ok(folder)
    } else {
        Err(format!("`./build lib` made no {}.", archive_in(&folder).display()))
    }
}

fn make_archive(root: &Path) -> Result<(), String> {
    let what = "libtisarqluk.a is missing: TISARQLUK_LIB_DIR is not set, target/staticlib of the \
                repository does not have it,";
    match Command::new(root.join("build")).arg("lib").current_dir(root).output() {
        Ok(made) if made.status.success() => Ok(()),
        Ok(made) => Err(format!(
            "{what} and `./build lib` failed:\n{}{}",
            String::from_utf8_lossy(&made.stdout),
            String::from_utf8_lossy(&made.stderr)
        )),
        Err(error) => {
            Err(format!("{what} and `./build`, which makes it, cannot be run: {error}"))
        }
    }
}
