//! The differential driver: every call on random, boundary and damaged input, held to the plain reading of the paper
//! and, where it speaks, to the Rust that is ported.
//!
//! A run is a list of calls drawn from a seed. To show that a wrong library would be caught, a run can be broken: one
//! call's answers are then those of a copy with a slip in it.

mod block;
mod code;
mod digits;
mod estimate;
mod rerank;
mod root;
mod scalar;
mod sums;
mod walk;

use crate::draw::Mood;
use crate::refusal::{ACCEPTED, NAMES};
use crate::rng::Rng;
use crate::{bytes, trial};
use std::collections::BTreeMap;
use std::fmt::Write;
use std::panic::{catch_unwind, AssertUnwindSafe};

/// A number and the bytes of every writable buffer.
pub type Answer = (u32, Vec<Vec<u8>>);

/// One C function: how to try it once, every number that it can give, and the slips that a broken copy may have.
pub struct Call {
    pub name: &'static str,
    pub numbers: &'static [u32],
    pub slips: &'static [&'static str],
    pub go: fn(&mut Run),
    /// How often it is drawn, beside the others.
    pub weight: usize,
}

/// Every call of the header.
pub fn calls() -> Vec<&'static Call> {
    let parts: &[&'static [Call]] = &[
        digits::CALLS,
        root::CALLS,
        scalar::CALLS,
        rerank::CALLS,
        code::CALLS,
        block::CALLS,
        sums::CALLS,
        estimate::CALLS,
        walk::CALLS,
    ];
    parts.iter().copied().flatten().collect()
}

/// Slips that every call can have: now and then one bit of an accepted answer is wrong; an accepted call writes
/// nothing; a refused call writes a byte; now and then a refusal has the next number.
pub const SLIPS: [&str; 4] = ["one-bit", "nothing", "touches", "number"];

/// Whether there is such a call, and it or every call can have this slip.
pub fn is_slip(call: &str, slip: &str) -> bool {
    calls().iter().any(|known| known.name == call && (known.slips.contains(&slip) || SLIPS.contains(&slip)))
}

pub struct Run {
    pub rng: Rng,
    seed: u64,
    made: u64,
    counts: BTreeMap<&'static str, [u64; NAMES.len()]>,
    with_rust: BTreeMap<&'static str, u64>,
    broken: Option<(String, String)>,
    call: &'static str,
    difference: Option<String>,
}

fn first_difference(got: &Answer, want: &Answer) -> Option<String> {
    if got.0 != want.0 {
        return Some(format!("number {} where {} is wanted", got.0, want.0));
    }
    let number = want.0;
    for (i, (got, want)) in got.1.iter().zip(&want.1).enumerate() {
        if got.len() != want.len() {
            return Some(format!("buffer {i} has {} bytes where {} are wanted", got.len(), want.len()));
        }
        if let Some(at) = (0..got.len()).find(|at| got[*at] != want[*at]) {
            return Some(format!(
                "number {number}, buffer {i}: byte {at} of {} is {:#04X} where {:#04X} is wanted",
                got.len(),
                got[at],
                want[at]
            ));
        }
    }
    None
}

impl Run {
    pub fn new(seed: u64) -> Run {
        Run {
            rng: Rng::new(seed),
            seed,
            made: 0,
            counts: BTreeMap::new(),
            with_rust: BTreeMap::new(),
            broken: None,
            call: "",
            difference: None,
        }
    }

    /// Puts a copy with a slip in the place of one call. A slip that the call does not have is no slip at all.
    pub fn broken(seed: u64, call: &str, slip: &str) -> Run {
        assert!(is_slip(call, slip), "{call} has no slip {slip}");
        Run { broken: Some((call.to_string(), slip.to_string())), ..Run::new(seed) }
    }

    /// Tries one call. A difference is kept, and the run should end with it. A panic is one, too: a byte outside of the
    /// lent buffers was written, or a search came to an end that it must not come to.
    pub fn try_call(&mut self, call: &Call) -> Option<&str> {
        self.call = call.name;
        if let Err(why) = catch_unwind(AssertUnwindSafe(|| (call.go)(self))) {
            let said = why.downcast_ref::<String>().map(String::as_str).or(why.downcast_ref::<&str>().copied());
            self.differs(said.unwrap_or("a panic"), "that of this call");
        }
        self.difference.as_deref()
    }

    fn differs(&mut self, found: &str, input: &str) {
        let (call, seed, made) = (self.call, self.seed, self.made);
        self.difference = Some(format!("{call}: {found}\nseed {seed}, call {made}\ninput: {input}"));
    }

    pub fn made(&self) -> u64 {
        self.made
    }

    /// Numbers that a call can give and that were not reached.
    pub fn not_reached(&self) -> Vec<String> {
        let mut missed = Vec::new();
        for call in calls() {
            for number in call.numbers {
                if self.counts.get(call.name).is_none_or(|counts| counts[*number as usize] == 0) {
                    missed.push(format!("{}: {}", call.name, NAMES[*number as usize]));
                }
            }
        }
        missed
    }

    /// A line for each call: how often each number was given, and how many answers were held to the Rust too.
    pub fn table(&self) -> String {
        let mut text = format!("{:<24}", "call");
        for name in NAMES {
            write!(text, "{name:>13}").unwrap();
        }
        writeln!(text, "{:>13}", "with Rust").unwrap();
        for call in calls() {
            let counts = self.counts.get(call.name).copied().unwrap_or_default();
            write!(text, "{:<24}", call.name).unwrap();
            for (number, count) in counts.iter().enumerate() {
                if call.numbers.contains(&(number as u32)) {
                    write!(text, "{count:>13}").unwrap();
                } else {
                    write!(text, "{:>13}", "").unwrap();
                }
            }
            writeln!(text, "{:>13}", self.with_rust.get(call.name).unwrap_or(&0)).unwrap();
        }
        text
    }

    /// Makes a call on buffers of the old contents `olds` and holds it to the paper's answer, and to the Rust's where
    /// `rust` gives one. `slip` is the answer of a broken copy that has the slip named.
    pub fn hold(
        &mut self,
        input: impl FnOnce() -> String,
        olds: &[Vec<u8>],
        call: impl FnOnce(&mut [&mut [u8]]) -> u32,
        want: Answer,
        rust: impl FnOnce() -> Option<Answer>,
        slip: impl FnOnce(&str) -> Answer,
    ) {
        self.made += 1;
        let offset = self.rng.below(8);
        let lent: Vec<&[u8]> = olds.iter().map(|old| &old[..]).collect();
        let mut got = trial::lend(&lent, offset, call);
        if let Some((name, broken)) = self.broken.clone() {
            if name == self.call {
                got = match self.shared_slip(&broken, &got, olds) {
                    Some(answer) => answer,
                    None => slip(&broken),
                };
            }
        }
        if let Some(count) = self.counts.entry(self.call).or_default().get_mut(got.0 as usize) {
            *count += 1;
        }
        let mut found = first_difference(&got, &want).map(|text| format!("not the paper's answer: {text}"));
        if found.is_none() {
            if let Some(rust) = rust() {
                *self.with_rust.entry(self.call).or_default() += 1;
                found = first_difference(&got, &rust).map(|text| format!("not the Rust's answer: {text}"));
            }
        }
        if let Some(found) = found {
            self.differs(&found, &input());
        }
    }

    fn shared_slip(&mut self, slip: &str, got: &Answer, olds: &[Vec<u8>]) -> Option<Answer> {
        if !SLIPS.contains(&slip) {
            return None;
        }
        let (mut number, mut buffers) = got.clone();
        let places: Vec<usize> = (0..buffers.len()).filter(|i| !buffers[*i].is_empty()).collect();
        let mut flip = |rng: &mut Rng| {
            if !places.is_empty() {
                let i = rng.pick(&places);
                let at = rng.below(buffers[i].len());
                buffers[i][at] ^= 1 << rng.below(8);
            }
        };
        match slip {
            "one-bit" if number == ACCEPTED && self.rng.once_in(20) => flip(&mut self.rng),
            "nothing" if number == ACCEPTED => buffers = olds.to_vec(),
            "touches" if number != ACCEPTED => flip(&mut self.rng),
            "number" if number != ACCEPTED && self.rng.once_in(20) => number += 1,
            _ => {}
        }
        Some((number, buffers))
    }
}

/// The answer of a call that writes one buffer.
fn one(answer: (u32, Vec<u8>)) -> Answer {
    (answer.0, vec![answer.1])
}

/// A refusal that keeps `olds`, or an accepted answer.
fn if_accepted(number: u32, olds: &[Vec<u8>], news: impl FnOnce() -> Vec<Vec<u8>>) -> Answer {
    (number, if number == ACCEPTED { news() } else { olds.to_vec() })
}

/// A call that writes the size of a code or of a block.
struct Size {
    call: fn(u32, &mut [u8]) -> u32,
    paper: fn(u32, &[u8]) -> (u32, Vec<u8>),
    rust: fn(u32) -> u32,
    /// The size that the broken copy gives.
    slipped: fn(u32) -> u32,
}

fn size(run: &mut Run, size: Size) {
    let mood = Mood::new(&mut run.rng);
    let dims = run.rng.rabitq_dims(&mood);
    let len = mood.length(&mut run.rng, 4);
    let olds = [run.rng.bytes(len)];
    let want = one((size.paper)(dims, &olds[0]));
    let number = want.0;
    let by = |size: fn(u32) -> u32| if_accepted(number, &olds, || vec![bytes::of_words(&[size(dims)])]);
    run.hold(
        || format!("dims {dims}, out of {len}"),
        &olds,
        |lent| (size.call)(dims, lent[0]),
        want,
        || (number == ACCEPTED).then(|| by(size.rust)),
        |_| by(size.slipped),
    );
}
