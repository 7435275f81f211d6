//! Module 4. A code is four factors, whatever the caller has for them, and a bit for each dimension. The bits stand in
//! words of 64, the first one lowest. A bit is set where the sign bit of the number is not.

use super::{after, first, missing};
use crate::bytes;
use crate::refusal::*;

/// The most dims that codes, blocks, sums, estimates and walks take.
pub const MOST: u32 = 4_369;

pub fn bad_dims(dims: u32) -> bool {
    dims == 0 || dims > MOST
}

pub fn size_of(dims: u32) -> usize {
    16 + 8 * (dims as usize).div_ceil(64)
}

/// A code of these factors and bits.
pub fn code(dims: u32, factors: &[u8], bit: impl Fn(usize) -> bool) -> Vec<u8> {
    let mut words = vec![0u64; (dims as usize).div_ceil(64)];
    for i in 0..dims as usize {
        words[i / 64] += u64::from(bit(i)) << (i % 64);
    }
    factors.iter().copied().chain(words.iter().flat_map(|word| word.to_le_bytes())).collect()
}

/// The bit of dimension i.
pub fn bit_at(code: &[u8], i: usize) -> bool {
    let at = 16 + 8 * (i / 64);
    u64::from_le_bytes(code[at..at + 8].try_into().unwrap()) >> (i % 64) & 1 == 1
}

pub fn size(dims: u32, out: &[u8]) -> (u32, Vec<u8>) {
    let number = first(&[(BAD_DIMS, &|| bad_dims(dims)), (BAD_LENGTH, &|| out.len() != 4)]);
    after(number, out, || (size_of(dims) as u32).to_le_bytes().to_vec())
}

pub fn encode(dims: u32, factors: &[u8], vector: &[u8], out: &[u8]) -> (u32, Vec<u8>) {
    let number = first(&[
        (BAD_DIMS, &|| bad_dims(dims)),
        (BAD_LENGTH, &|| factors.len() != 16 || vector.len() != 4 * dims as usize || out.len() != size_of(dims)),
        (MISSING, &|| missing(vector)),
    ]);
    after(number, out, || {
        let vector = bytes::words(vector);
        code(dims, factors, |i| vector[i] < 0x8000_0000)
    })
}

pub fn bit(dims: u32, code: &[u8], index: u32, out: &[u8]) -> (u32, Vec<u8>) {
    let number = first(&[
        (BAD_DIMS, &|| bad_dims(dims)),
        (BAD_LENGTH, &|| code.len() != size_of(dims) || out.len() != 4),
        (OUT_OF_RANGE, &|| index >= dims),
    ]);
    after(number, out, || u32::from(bit_at(code, index as usize)).to_le_bytes().to_vec())
}
