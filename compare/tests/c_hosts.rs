//! Hosts in C and C++ on include/tisarqluk.h: the header's own example and
//! c/uses_header.c compile without a warning; with the library they run.

use std::path::{Path, PathBuf};
use std::process::Command;

const WARNINGS: [&str; 4] = ["-Wall", "-Wextra", "-pedantic", "-Werror"];

/// The compilers, with the standard that the header is for.
const COMPILERS: [&[&str]; 2] = [&["cc", "-std=c99"], &["c++", "-std=c++11", "-x", "c++"]];

fn include_folder() -> PathBuf {
    Path::new(env!("CARGO_MANIFEST_DIR")).join("../include")
}

/// The example that stands in the header's first comment, as a file.
fn header_example() -> PathBuf {
    let header = std::fs::read_to_string(include_folder().join("tisarqluk.h")).unwrap();
    let example: Vec<&str> = header
        .lines()
        .skip_while(|line| !line.contains("EXAMPLE."))
        .skip(1)
        .take_while(|line| !line.contains("Build it with"))
        .map(|line| line.strip_prefix(" *     ").unwrap_or(""))
        .collect();
    let path = Path::new(env!("CARGO_TARGET_TMPDIR")).join("example.c");
    std::fs::write(&path, example.join("\n") + "\n").unwrap();
    path
}

/// Compiles the source into an object file.
fn compile(compiler: &[&str], source: &Path) -> PathBuf {
    let name = format!("{}-{}.o", source.file_stem().unwrap().to_string_lossy(), compiler[0]);
    let object = Path::new(env!("CARGO_TARGET_TMPDIR")).join(name);
    let compiled = Command::new(compiler[0])
        .args(&compiler[1..])
        .args(WARNINGS)
        .arg("-I")
        .arg(include_folder())
        .arg("-c")
        .arg(source)
        .arg("-o")
        .arg(&object)
        .output()
        .unwrap_or_else(|error| panic!("FAIL: {} cannot be run: {error}", compiler[0]));
    assert!(compiled.status.success(), "{}", String::from_utf8_lossy(&compiled.stderr));
    object
}

/// Links the object file with the library and gives what the program prints.
#[cfg(feature = "library")]
fn run(compiler: &[&str], object: &Path) -> String {
    let program = object.with_extension("");
    let linked = Command::new(compiler[0])
        .arg(object)
        .arg(env!("TISARQLUK_ARCHIVE"))
        .arg("-o")
        .arg(&program)
        .output()
        .unwrap();
    assert!(linked.status.success(), "{}", String::from_utf8_lossy(&linked.stderr));
    let ran = Command::new(&program).output().unwrap();
    let output = String::from_utf8(ran.stdout).unwrap();
    assert!(ran.status.success(), "{output}");
    output
}

#[test]
fn the_example_of_the_header() {
    let example = header_example();
    for compiler in COMPILERS {
        let _object = compile(compiler, &example);
        #[cfg(feature = "library")]
        assert_eq!(run(compiler, &_object), "hello\n");
    }
}

#[test]
fn a_host_that_uses_only_the_header() {
    let source = Path::new(env!("CARGO_MANIFEST_DIR")).join("c/uses_header.c");
    for compiler in COMPILERS {
        let _object = compile(compiler, &source);
        #[cfg(feature = "library")]
        print!("{}", run(compiler, &_object));
    }
}
