//! The program `vectors`, run on lists of its own: it tells an answer that differs, and never takes half of a line for
//! the whole.

use harness::program::{built, root};
use std::process::Command;
use std::{env, fs};

fn said_of(name: &str, list: &str) -> String {
    let path = env::temp_dir().join(format!("lintelkite-vectors-{}-{name}", std::process::id()));
    fs::write(&path, list).unwrap();
    let ran = Command::new(built("vectors")).arg(&path).output().expect("the program runs");
    fs::remove_file(&path).unwrap();
    String::from_utf8(ran.stdout).unwrap()
}

/// What it says before its tallies, and the tally of a call.
fn told(name: &str, list: &str, call: &str) -> (String, String) {
    let said = said_of(name, list);
    let told = said.lines().filter(|line| line.starts_with("line ")).collect::<Vec<_>>().join("\n");
    let tally = said.lines().find(|line| line.starts_with(&format!("{call}: "))).unwrap_or("").to_string();
    (told, tally)
}

const AGREES: &str = "digits_pack 3 4 [010203] [eeee] = 0 [2103]\n";

#[test]
fn its_own_list_agrees() {
    let list = fs::read_to_string(root().join("crates/vectors/data/answers")).unwrap();
    let stdout = fs::read_to_string(root().join("crates/vectors/stdout")).unwrap();
    assert_eq!(said_of("own", &list), stdout);
}

#[test]
fn an_answer_that_differs_is_told() {
    let both = |last: &str| format!("# two lines\n\n{AGREES}{last}\n");
    for (name, line, told_of_it) in [
        ("number", "digits_pack 3 4 [010203] [eeee] = 5 [eeee]", "line 4: the number differs"),
        ("bytes", "digits_pack 3 4 [010203] [eeee] = 0 [2113]", "line 4: the bytes differ"),
        ("short", "digits_pack 3 4 [010203] [eeee] = 0 [21]", "line 4: the bytes differ"),
        ("cut", "digits_pack 3 4 [010203] [eeee] = 0", "line 4: no such call, or parameters that it doesn't have"),
    ] {
        let said = told(name, &both(line), "digits_pack");
        assert_eq!(said, (told_of_it.to_string(), "digits_pack: 1 of 2 agree".to_string()), "{line}");
    }
    let (unknown, _) = told("unknown", "digits_pock 3 4 [010203] [eeee] = 0 [2103]\n", "digits_pack");
    assert_eq!(unknown, "line 1: no such call, or parameters that it doesn't have");
}

/// 40,000 bytes are the most that a buffer may have: one more is told, and not cut off.
#[test]
fn a_buffer_that_is_too_long_is_told() {
    let list = |n: usize| format!("digits_pack {n} 8 [{}] [] = 3 []\n", "00".repeat(n));
    let of = |n: usize| told(&n.to_string(), &list(n), "digits_pack");
    assert_eq!(of(40_000), (String::new(), "digits_pack: 1 of 1 agree".to_string()));
    let told = "line 1: a buffer of more than 40,000 bytes".to_string();
    assert_eq!(of(40_001), (told, "digits_pack: 0 of 1 agree".to_string()));
}

#[test]
fn a_list_that_is_too_long_or_away() {
    assert_eq!(said_of("long", &"#".repeat(262_144)), "the list is too long\n");
    let ran = Command::new(built("vectors")).arg("/nowhere/at/all").output().unwrap();
    assert_eq!(String::from_utf8(ran.stdout).unwrap(), "the list can't be opened\n");
    let ran = Command::new(built("vectors")).output().unwrap();
    assert_eq!(String::from_utf8(ran.stdout).unwrap(), "usage: vectors LIST\n");
}
