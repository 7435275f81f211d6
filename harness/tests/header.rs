//! The declarations that the harness calls are those of include/lintelkite.h: names, order, parameters and types.

use harness::header::{self, one_line, Function};
use std::collections::BTreeMap;

fn rust_functions(sys: &str) -> Vec<Function> {
    let c = BTreeMap::from([
        ("u32", "uint32_t"),
        ("f32", "float"),
        ("usize", "size_t"),
        ("*const u8", "const uint8_t *"),
        ("*mut u8", "uint8_t *"),
    ]);
    let mut found = Vec::new();
    for piece in one_line(sys).split("pub fn ").skip(1) {
        let (name, rest) = piece.split_once('(').expect("a parameter list");
        let (parameters, rest) = rest.split_once(')').expect("a parameter list ends");
        assert!(rest.starts_with(" -> u32;"), "{name} returns a number");
        let parameters =
            parameters.split(',').map(str::trim).filter(|parameter| !parameter.is_empty()).map(|parameter| {
                let (name, kind) = parameter.split_once(": ").expect("a type");
                (name.to_string(), c[kind].to_string())
            });
        found.push((name.to_string(), parameters.collect()));
    }
    found
}

#[test]
fn the_header_and_sys_declare_the_same() {
    let header = header::functions();
    let sys = rust_functions(include_str!("../../bindings/rust/src/sys.rs"));
    assert!(!header.is_empty());
    assert_eq!(header, sys);
}

/// The header's list of refusals is that of the driver, which reaches each of them and meets no other.
#[test]
fn the_header_lists_the_refusals_of_each_call() {
    let listed: BTreeMap<&str, Vec<u32>> = header::TEXT
        .lines()
        .filter_map(|line| line.strip_prefix(" *   lk_").map(|_| &line[" *   ".len()..]))
        .map(|line| {
            let (name, numbers) = line.split_once(' ').unwrap();
            (name, numbers.split_whitespace().map(|number| number.parse().unwrap()).collect())
        })
        .collect();
    assert_eq!(listed, driven());
    assert_eq!(listed.len(), header::functions().len());
}

/// The refusals of each C function, as the driver has them.
fn driven() -> BTreeMap<&'static str, Vec<u32>> {
    let calls = harness::drive::calls().into_iter().filter(|call| call.name.starts_with("lk_"));
    calls.map(|call| (call.name, call.numbers[1..].to_vec())).collect()
}

/// So is that of docs/PROMISES.md, where a call's entry begins "- **lk_" and has its refusals in the same line.
#[test]
fn the_promises_list_the_refusals_of_each_call() {
    let mut listed = BTreeMap::new();
    for line in include_str!("../../docs/PROMISES.md").lines().filter(|line| line.starts_with("- **lk_")) {
        let (_, numbers) = line.split_once("Refusals ").unwrap_or_else(|| panic!("{line}"));
        let (numbers, _) = numbers.split_once('.').unwrap();
        let numbers: Vec<u32> = numbers.split(", ").map(|number| number.parse().unwrap()).collect();
        for name in line.split("**").filter(|piece| piece.starts_with("lk_")) {
            listed.insert(name, numbers.clone());
        }
    }
    assert_eq!(listed, driven());
}

#[test]
fn the_header_and_refusal_number_alike() {
    let header = header::bare();
    for (number, name) in harness::refusal::NAMES.iter().enumerate() {
        let entry = format!("LK_{name} = {number}");
        let stands = header.split([',', '{', '}']).any(|piece| piece.trim() == entry);
        assert!(stands, "{entry}");
    }
}
