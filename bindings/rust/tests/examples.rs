//! Every public function has an example in its documentation; `cargo test --doc` runs them.

use std::fs;
use std::path::Path;

fn is_public_function(line: &str) -> bool {
    line.starts_with("pub ") && line.split(' ').take_while(|word| !word.contains('(')).any(|word| word == "fn")
}

/// How many public functions a file has, and the lines of those without an example. Attributes may stand between the
/// documentation and the function.
fn functions(file: &str) -> (usize, Vec<String>) {
    let (mut count, mut without) = (0, Vec::new());
    let (mut example, mut attribute) = (false, false);
    for line in file.lines().map(str::trim) {
        if line.starts_with("///") {
            example |= line == "/// ```";
            continue;
        }
        attribute |= line.starts_with("#[");
        if attribute {
            attribute = !line.ends_with(']');
            continue;
        }
        if is_public_function(line) {
            count += 1;
            if !example {
                without.push(line.to_string());
            }
        }
        example = false;
    }
    (count, without)
}

#[test]
fn every_public_function_has_one() {
    let mut count = 0;
    for file in fs::read_dir(Path::new(env!("CARGO_MANIFEST_DIR")).join("src")).unwrap() {
        let path = file.unwrap().path();
        // The C functions are documented in the header, and no user of the crate sees them.
        if path.ends_with("sys.rs") {
            continue;
        }
        let (found, without) = functions(&fs::read_to_string(&path).unwrap());
        assert_eq!(without, Vec::<String>::new(), "{}", path.display());
        count += found;
    }
    assert!(count > 40, "{count} functions");
}

#[test]
fn one_without_is_told() {
    let example = "/// Text.\n///\n/// ```\n/// f();\n/// ```\n";
    let of = |before: &str, function: &str| functions(&format!("{before}{function} {{\n    g()\n}}\n"));
    let told = |function: &str| (1, vec![format!("{function} {{")]);
    let attributes = "#[must_use]\n#[cfg(any(\n    unix,\n    windows\n))]\n";
    for function in ["pub fn f()", "pub const fn f(self) -> u32", "pub unsafe fn f<T: Fn()>(t: T)"] {
        assert_eq!(of(example, function), (1, vec![]));
        assert_eq!(of(&format!("{example}{attributes}"), function), (1, vec![]));
        assert_eq!(of("", function), told(function));
        assert_eq!(of("/// Text.\n#[must_use]\n", function), told(function));
        assert_eq!(of(&format!("{example}pub struct S;\n\n"), function), told(function));
    }
    assert_eq!(of("", "fn f()"), (0, vec![]));
    assert_eq!(of("", "pub struct S(fn f())"), (0, vec![]));
}
