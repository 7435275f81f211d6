//! A plain reading of the paper, module by module: slow, short, and written from its sentences.
//!
//! An answer is the refusal number and the bytes of the writable buffer afterwards. Conditions stand in the order of
//! their numbers, so the smallest is given.

pub mod block;
pub mod code;
pub mod digits;
pub mod estimate;
pub mod rerank;
pub mod root;
pub mod scalar;
pub mod sums;
pub mod walk;

use crate::refusal::ACCEPTED;

/// A refusal keeps every byte; an accepted call leaves the bytes worked out.
pub fn after(number: u32, old: &[u8], new: impl FnOnce() -> Vec<u8>) -> (u32, Vec<u8>) {
    (number, if number == ACCEPTED { new() } else { old.to_vec() })
}

/// The number of the first condition that holds. They are listed in the order of their numbers.
pub fn first(conditions: &[(u32, &dyn Fn() -> bool)]) -> u32 {
    conditions.iter().find(|(_, holds)| holds()).map_or(ACCEPTED, |(number, _)| *number)
}

/// Whether a number is missing: one that is not finite stands among the floats.
pub fn missing(floats: &[u8]) -> bool {
    crate::bytes::floats(floats).iter().any(|x| !x.is_finite())
}

/// Whether a number is no metric, or no layout: there are two of either.
pub fn neither_1_nor_2(number: u32) -> bool {
    number != 1 && number != 2
}
