//! The differential driver finds what it is there to find.

use harness::drive::{calls, Call, Run, SLIPS};
use std::process::Command;

/// Every number of every call is reached, with no difference.
#[test]
fn a_short_run_agrees_and_reaches_every_number() {
    let mut run = Run::new(3);
    for _ in 0..1_500 {
        for call in calls() {
            assert_eq!(run.try_call(call), None);
        }
    }
    assert_eq!(run.not_reached(), Vec::<String>::new());
}

/// A run that has not reached a number says so.
#[test]
fn a_number_that_is_not_reached_is_told() {
    let all: usize = calls().iter().map(|call| call.numbers.len()).sum();
    assert_eq!(Run::new(4).not_reached().len(), all);
}

/// A broken copy of each call is found, whichever slip it has: one that every copy can have, or one of its own.
#[test]
fn every_slip_is_found() {
    let mut missed = Vec::new();
    for call in calls() {
        let shared: &[&str] = if call.numbers.len() > 1 { &SLIPS } else { &SLIPS[..2] };
        for slip in shared.iter().chain(call.slips) {
            let mut run = Run::broken(5, call.name, slip);
            let found = (0..20_000).any(|_| run.try_call(call).is_some());
            if !found {
                missed.push(format!("{}:{slip}", call.name));
            }
        }
    }
    assert_eq!(missed, Vec::<String>::new());
}

/// A guard byte that was written ends in a panic, and the run tells where.
#[test]
fn a_panic_is_a_difference() {
    let call = Call { name: "lk_root", numbers: &[], slips: &[], go: |_| panic!("a guard byte"), weight: 1 };
    let mut run = Run::new(7);
    let told = run.try_call(&call).unwrap();
    assert!(told.contains("lk_root: a guard byte") && told.contains("seed 7, call 0"), "{told}");
}

/// What the program prints and whether it exits with 0.
fn differential(arguments: &[&str]) -> (String, Option<i32>) {
    let ran = Command::new(env!("CARGO_BIN_EXE_differential")).args(arguments).output().unwrap();
    (String::from_utf8(ran.stdout).unwrap(), ran.status.code())
}

#[test]
fn the_program_says_what_it_did() {
    let (text, code) = differential(&["6", "--calls", "60000"]);
    assert_eq!(code, Some(0), "{text}");
    assert!(text.starts_with("seed 6\n") && text.contains("60000 calls agree"), "{text}");
    for call in calls() {
        assert!(text.lines().any(|line| line.starts_with(call.name)), "{}", call.name);
    }
}

#[test]
fn the_program_fails_where_it_should() {
    let (text, code) = differential(&["6", "--calls", "5"]);
    assert!(code == Some(1) && text.contains("NOT REACHED"), "{text}");
    for call in calls() {
        let (text, code) = differential(&["6", "--calls", "60000", "--break", &format!("{}:one-bit", call.name)]);
        assert!(code == Some(1) && text.contains(&format!("DIFFERENCE in {}", call.name)), "{text}");
        assert!(text.contains("seed 6, call "), "{text}");
    }
    for wrong in [&["--seed"][..], &["--calls"], &["--break", "lk_walk"], &["--break", "lk_walk:no-such-slip"]] {
        assert_eq!(differential(wrong).1, Some(2), "{wrong:?}");
    }
}
