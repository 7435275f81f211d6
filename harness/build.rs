//! Builds the static library and links it.
//!
//! `make` has `rt` prove the library and writes target/staticlib/liblintelkite.a, where that has not been done. The
//! harness links a copy in its own folder. LINTELKITE_ARCHIVE names an archive that is built already and is linked instead.

use std::path::{Path, PathBuf};
use std::process::{Command, Stdio};
use std::{env, fs};

fn main() {
    let root = Path::new(&env::var_os("CARGO_MANIFEST_DIR").unwrap()).parent().unwrap().to_path_buf();
    let out = PathBuf::from(env::var_os("OUT_DIR").unwrap());
    println!("cargo:rerun-if-env-changed=LINTELKITE_ARCHIVE");
    // An empty one is as good as none.
    let archive = match env::var_os("LINTELKITE_ARCHIVE").filter(|path| !path.is_empty()) {
        Some(path) => {
            println!("cargo:rerun-if-changed={}", Path::new(&path).display());
            PathBuf::from(path)
        }
        None => build(&root),
    };
    if let Err(why) = fs::copy(&archive, out.join("liblintelkite.a")) {
        panic!("cannot read {}: {why}", archive.display());
    }
    avx512();
    println!("cargo:rustc-link-search=native={}", out.display());
    println!("cargo:rustc-link-lib=static=lintelkite");
}

/// Rust 1.89 is the first that has the instructions of AVX-512: cfg(avx512) says that this one has them.
fn avx512() {
    println!("cargo:rustc-check-cfg=cfg(avx512)");
    let version = Command::new(env::var_os("RUSTC").unwrap()).arg("--version").output().unwrap();
    let version = String::from_utf8_lossy(&version.stdout).into_owned();
    let minor = version.split('.').nth(1).and_then(|minor| minor.parse::<u32>().ok());
    if minor.is_some_and(|minor| minor >= 89) {
        println!("cargo:rustc-cfg=avx512");
    }
}

fn build(root: &Path) -> PathBuf {
    // What the archive is made of. Beside it rt writes crates/NAME/out, which must not have this run again.
    println!("cargo:rerun-if-changed={}", root.join("crates.txt").display());
    println!("cargo:rerun-if-changed={}", root.join("Makefile").display());
    for folder in fs::read_dir(root.join("crates")).unwrap().map(|entry| entry.unwrap().path()) {
        for part in ["src", "specs", "proofs"].map(|part| folder.join(part)) {
            if part.is_dir() {
                println!("cargo:rerun-if-changed={}", part.display());
            }
        }
    }
    let built = "target/staticlib/liblintelkite.a";
    let ran = Command::new("make")
        .args(["--no-print-directory", "-s", built])
        .env_remove("MAKEFLAGS")
        .current_dir(root)
        .stdin(Stdio::null())
        .output()
        .unwrap_or_else(|why| panic!("cannot run make: {why}"));
    if !ran.status.success() {
        panic!(
            "make {built}: {}\n{}{}",
            ran.status,
            String::from_utf8_lossy(&ran.stdout),
            String::from_utf8_lossy(&ran.stderr)
        );
    }
    root.join(built)
}
