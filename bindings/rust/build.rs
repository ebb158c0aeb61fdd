//! Finds or makes the static library, and looks for the original's text, with which the tests compare where it is there.

use std::env;
use std::fs;
use std::path::{Path, PathBuf};
use std::process::Command;

const LIBRARY: &str = "libsonic_c.a";

/// The repository, from this package.
const REPOSITORY: &str = "../..";

/// The original, from this package; KELPLADDER_ORIGINAL names another place.
const ORIGINAL: &str = "../../../shared/docs/src/src/lib.rs";

/// The copies of the original that the tests compare with, as tools/judges.py names and makes them.
const COPIES: [&str; 3] = ["stepping_over", "largest", "largest_stepping_over"];

fn package() -> PathBuf {
    PathBuf::from(env::var_os("CARGO_MANIFEST_DIR").expect("cargo names the package's folder"))
}

/// The folder named by KELPLADDER_LIB_DIR, which must have the library.
fn named_folder() -> Option<PathBuf> {
    let folder = PathBuf::from(env::var_os("KELPLADDER_LIB_DIR")?);
    assert!(folder.join(LIBRARY).is_file(), "KELPLADDER_LIB_DIR is {}, and there is no {LIBRARY} in it", folder.display());
    Some(folder)
}

/// Has `rt`, by make, prove the crate and write the library.
fn make_library(repository: &Path) {
    let help = "run `make stream` in the repository, or set KELPLADDER_LIB_DIR to the folder that has the library";
    assert!(repository.join("crates.txt").is_file(), "no {LIBRARY}, and {} is not the repository: {help}", repository.display());
    match Command::new("make").arg("stream").current_dir(repository).status() {
        Ok(status) => assert!(status.success(), "`make stream` failed ({status}): {help}"),
        Err(error) => panic!("no {LIBRARY}, and `make` cannot be run ({error}): {help}"),
    }
}

/// The repository's own folder of libraries; the library is made if it is not there.
fn repository_folder() -> PathBuf {
    let repository = package().join(REPOSITORY);
    let folder = repository.join("target/staticlib");
    if !folder.join(LIBRARY).is_file() {
        make_library(&repository);
    }
    assert!(folder.join(LIBRARY).is_file(), "`make stream` wrote no {LIBRARY} to {}", folder.display());
    folder
}

fn link() {
    let architecture = env::var("CARGO_CFG_TARGET_ARCH").unwrap_or_default();
    assert_eq!(architecture, "x86_64", "the static library is for x86-64 only");
    let folder = named_folder().unwrap_or_else(repository_folder);
    println!("cargo::rerun-if-env-changed=KELPLADDER_LIB_DIR");
    println!("cargo::rerun-if-changed={}", folder.join(LIBRARY).display());
    println!("cargo::rustc-link-search=native={}", folder.display());
    println!("cargo::rustc-link-lib=static=sonic_c");
}

/// Writes a copy of the original to a folder, and gives its place.
fn write_copy(original: &Path, name: &str, folder: &Path) -> PathBuf {
    let tool = package().join(REPOSITORY).join("tools/judges.py");
    println!("cargo::rerun-if-changed={}", tool.display());
    let made = Command::new("python3").arg(&tool).arg(original).arg(name).output().expect("python3 runs tools/judges.py");
    assert!(made.status.success(), "{}", String::from_utf8_lossy(&made.stderr));
    let copy = folder.join(name).with_extension("rs");
    fs::write(&copy, made.stdout).expect("the copy can be written");
    copy
}

/// Writes the modules that the tests include: the original's text, in its place, if it is there, and its copies.
fn find_original() {
    let path = env::var_os("KELPLADDER_ORIGINAL").map_or_else(|| package().join(ORIGINAL), PathBuf::from);
    println!("cargo::rerun-if-env-changed=KELPLADDER_ORIGINAL");
    println!("cargo::rerun-if-changed={}", path.display());
    println!("cargo::rustc-check-cfg=cfg(original)");
    if let Ok(path) = path.canonicalize() {
        let folder = PathBuf::from(env::var_os("OUT_DIR").expect("cargo names a folder for this script"));
        let module = |name, path: &Path| format!("#[allow(dead_code, unused_variables)]\n#[path = {path:?}]\nmod {name};\n");
        let copies = COPIES.map(|name| module(name, &write_copy(&path, name, &folder)));
        let text = module("original", &path) + &copies.concat();
        fs::write(folder.join("original.rs"), text).expect("the module can be written");
        println!("cargo::rustc-cfg=original");
    }
}

fn main() {
    println!("cargo::rerun-if-changed=build.rs");
    link();
    find_original();
}
