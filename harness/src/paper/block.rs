//! Module 5. A block begins with its factors: four lists of 32 floats, a float for each lane. Then each four dimensions
//! take 16 bytes. The first 16 lanes have the low halves of these bytes, the others the high ones, and the first of the
//! four dimensions has the lowest bit. Bits past dims belong to nobody: they are not looked at, and come out as 0.

use super::code::{self, bad_dims};
use super::{after, first};
use crate::refusal::*;

pub fn size_of(dims: u32) -> usize {
    512 + 16 * (dims as usize).div_ceil(4)
}

/// The byte and the place in it where a lane has the bit of dimension i.
pub fn place(lane: usize, i: usize) -> (usize, u32) {
    (512 + 16 * (i / 4) + lane % 16, (4 * (lane / 16) + i % 4) as u32)
}

pub fn bit_at(block: &[u8], lane: usize, i: usize) -> bool {
    let (byte, place) = place(lane, i);
    block[byte] >> place & 1 == 1
}

/// Where factor f of a lane stands.
pub fn factor(f: usize, lane: usize) -> std::ops::Range<usize> {
    128 * f + 4 * lane..128 * f + 4 * lane + 4
}

pub fn packed(dims: u32, codes: &[u8]) -> Vec<u8> {
    let mut block = vec![0; size_of(dims)];
    for (lane, single) in codes.chunks(code::size_of(dims)).enumerate() {
        for f in 0..4 {
            block[factor(f, lane)].copy_from_slice(&single[4 * f..4 * f + 4]);
        }
        for i in 0..dims as usize {
            let (byte, place) = place(lane, i);
            block[byte] += u8::from(code::bit_at(single, i)) << place;
        }
    }
    block
}

pub fn single(dims: u32, block: &[u8], lane: usize) -> Vec<u8> {
    let factors: Vec<u8> = (0..4).flat_map(|f| block[factor(f, lane)].to_vec()).collect();
    code::code(dims, &factors, |i| bit_at(block, lane, i))
}

pub fn size(dims: u32, out: &[u8]) -> (u32, Vec<u8>) {
    let number = first(&[(BAD_DIMS, &|| bad_dims(dims)), (BAD_LENGTH, &|| out.len() != 4)]);
    after(number, out, || (size_of(dims) as u32).to_le_bytes().to_vec())
}

pub fn pack(dims: u32, codes: &[u8], block: &[u8]) -> (u32, Vec<u8>) {
    let number = first(&[
        (BAD_DIMS, &|| bad_dims(dims)),
        (BAD_LENGTH, &|| codes.len() != 32 * code::size_of(dims) || block.len() != size_of(dims)),
    ]);
    after(number, block, || packed(dims, codes))
}

pub fn lane(dims: u32, block: &[u8], lane: u32, code: &[u8]) -> (u32, Vec<u8>) {
    let number = first(&[
        (BAD_DIMS, &|| bad_dims(dims)),
        (BAD_LENGTH, &|| block.len() != size_of(dims) || code.len() != code::size_of(dims)),
        (OUT_OF_RANGE, &|| lane > 31),
    ]);
    after(number, code, || single(dims, block, lane as usize))
}
