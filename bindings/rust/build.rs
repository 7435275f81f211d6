//! Finds liblintelkite.a and links a copy of it. Paths are whole ones: cargo runs this in the crate's own folder. In this
//! order:
//!
//! 1. LINTELKITE_ARCHIVE names the archive.
//! 2. LINTELKITE_PREFIX is what `make install PREFIX=..` was given: the archive is lib/liblintelkite.a in it.
//! 3. `make` at the repository's root has `rt` prove the library and build it, where that has not been done. Its archive
//!    is linked as a copy.

use std::path::{Path, PathBuf};
use std::process::{Command, Stdio};
use std::{env, fs};

const NAME: &str = "liblintelkite.a";

fn main() {
    let out = PathBuf::from(env::var_os("OUT_DIR").unwrap());
    let installed = named("LINTELKITE_PREFIX").map(|prefix| prefix.join("lib").join(NAME));
    let archive = match named("LINTELKITE_ARCHIVE").or(installed) {
        Some(path) => {
            println!("cargo:rerun-if-changed={}", path.display());
            path
        }
        None => build(),
    };
    if let Err(why) = fs::copy(&archive, out.join(NAME)) {
        panic!("cannot read {}: {why}", archive.display());
    }
    println!("cargo:rustc-link-search=native={}", out.display());
    println!("cargo:rustc-link-lib=static=lintelkite");
}

/// The path that a variable holds. An empty one is as good as none.
fn named(variable: &str) -> Option<PathBuf> {
    println!("cargo:rerun-if-env-changed={variable}");
    env::var_os(variable).filter(|path| !path.is_empty()).map(PathBuf::from)
}

fn build() -> PathBuf {
    let here = PathBuf::from(env::var_os("CARGO_MANIFEST_DIR").unwrap());
    let root = here.ancestors().nth(2).map(Path::to_path_buf).unwrap_or_default();
    if !root.join("crates.txt").is_file() {
        panic!("no archive: set LINTELKITE_ARCHIVE or LINTELKITE_PREFIX, or build inside Lintelkite's repository");
    }
    // What the archive is made of. Beside it rt writes crates/NAME/out, which must not have this run again.
    println!("cargo:rerun-if-changed={}", root.join("crates.txt").display());
    println!("cargo:rerun-if-changed={}", root.join("Makefile").display());
    let crates = fs::read_dir(root.join("crates")).unwrap_or_else(|why| panic!("cannot read crates/: {why}"));
    for folder in crates.map(|entry| entry.unwrap().path()) {
        for part in ["src", "specs", "proofs"].map(|part| folder.join(part)) {
            if part.is_dir() {
                println!("cargo:rerun-if-changed={}", part.display());
            }
        }
    }
    let built = format!("target/staticlib/{NAME}");
    let ran = Command::new("make")
        .args(["--no-print-directory", "-s", &built])
        .env_remove("MAKEFLAGS")
        .current_dir(&root)
        .stdin(Stdio::null())
        .output()
        .unwrap_or_else(|why| panic!("cannot run make: {why}"));
    if !ran.status.success() {
        let said = [ran.stdout, ran.stderr].map(|text| String::from_utf8_lossy(&text).into_owned());
        panic!("make {built}: {}\n{}{}", ran.status, said[0], said[1]);
    }
    root.join(built)
}
