//! The data of the programs is what its generators write, byte for byte.

use harness::program::root;
use std::process::Command;
use std::{env, fs};

fn read(path: &str) -> Vec<u8> {
    fs::read(root().join(path)).unwrap()
}

#[test]
fn the_answers() {
    let ran = Command::new(env!("CARGO_BIN_EXE_answers")).output().unwrap();
    assert!(ran.status.success());
    assert!(ran.stdout == read("crates/vectors/data/answers"), "harness/src/bin/answers.rs writes another list");
}

#[test]
fn the_samples() {
    let folder = env::temp_dir().join(format!("lintelkite-samples-{}", std::process::id()));
    let ran = Command::new(env!("CARGO_BIN_EXE_sample")).arg(&folder).output().unwrap();
    assert!(ran.status.success());
    for name in ["cabinet", "cabinet_damaged"] {
        for file in ["records", "distances"] {
            let path = format!("{name}/data/{file}");
            let written = fs::read(folder.join(&path)).unwrap();
            assert!(written == read(&format!("crates/{path}")), "harness/src/bin/sample.rs writes another {path}");
        }
    }
    fs::remove_dir_all(&folder).unwrap();
}
