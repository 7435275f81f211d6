//! The repository's proved programs, run from outside.

use std::collections::BTreeMap;
use std::env;
use std::io::ErrorKind;
use std::path::{Path, PathBuf};
use std::process::{Command, Stdio};
use std::sync::Mutex;

pub fn root() -> PathBuf {
    Path::new(env!("CARGO_MANIFEST_DIR")).parent().unwrap().to_path_buf()
}

/// The program, as crates/ has it now. Each is looked for once, whichever tests ask for it.
pub fn built(name: &str) -> PathBuf {
    static FOUND: Mutex<BTreeMap<String, Result<PathBuf, String>>> = Mutex::new(BTreeMap::new());
    let program = FOUND.lock().unwrap().entry(name.to_string()).or_insert_with(|| find(name)).clone();
    program.unwrap_or_else(|why| panic!("{why}"))
}

/// LINTELKITE_PROGRAMS is the whole path of a folder that has the programs, built already. Where it is not set, or empty,
/// `rt run` proves and builds what has changed, and nothing else. Where there is no rt, a program that is there has to do.
fn find(name: &str) -> Result<PathBuf, String> {
    if let Some(folder) = env::var_os("LINTELKITE_PROGRAMS").filter(|folder| !folder.is_empty()) {
        let program = Path::new(&folder).join(name);
        return if program.is_file() { Ok(program) } else { Err(format!("There is no {}.", program.display())) };
    }
    let folder = root().join("crates").join(name);
    let program = folder.join("out").join(name);
    // It runs the program as well, without arguments: each then says how it is called, and ends with 0.
    match Command::new("rt").arg("run").current_dir(folder).stdin(Stdio::null()).output() {
        Ok(ran) if ran.status.success() => Ok(program),
        Ok(ran) => {
            let said = [ran.stdout, ran.stderr].map(|text| String::from_utf8_lossy(&text).into_owned());
            Err(format!("rt run in crates/{name}: {}\n{}{}", ran.status, said[0], said[1]))
        }
        Err(why) if why.kind() == ErrorKind::NotFound && program.exists() => Ok(program),
        Err(why) => Err(format!(
            "There is no crates/{name}/out/{name}, and rt does not run: {why}. Put rt on the path, or build the program \
             with `rt run` in crates/{name} where it is."
        )),
    }
}
