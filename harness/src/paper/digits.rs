//! Module 1. A byte has as many codes as fit into it, the first one lowest. What is left of the last byte is 0, and
//! nothing reads it.

use super::after;
use crate::refusal::*;

/// The most dims that digits and the scalar quantizer take.
pub const MOST: u32 = 65_535;
pub const WIDTHS: [u32; 4] = [1, 2, 4, 8];

pub fn bad_dims(dims: u32) -> bool {
    dims == 0 || dims > MOST
}

pub fn bad_width(bits: u32) -> bool {
    !WIDTHS.contains(&bits)
}

/// The greatest code, 2^w - 1.
pub fn top(bits: u32) -> u32 {
    2u32.pow(bits) - 1
}

pub fn size_of(dims: u32, bits: u32) -> usize {
    let digits = dims as usize * bits as usize;
    digits / 8 + usize::from(digits % 8 != 0)
}

/// Code i stands in byte i / (8/w), at place i % (8/w) from the lowest bits on.
pub fn packed(bits: u32, codes: &[u8]) -> Vec<u8> {
    let in_a_byte = (8 / bits) as usize;
    let mut bytes = Vec::new();
    for group in codes.chunks(in_a_byte) {
        let mut sum = 0;
        for (place, code) in group.iter().enumerate() {
            sum += u32::from(*code) * 2u32.pow(bits * place as u32);
        }
        bytes.push(u8::try_from(sum).unwrap());
    }
    bytes
}

pub fn digit(bits: u32, packed: &[u8], index: usize) -> u32 {
    let in_a_byte = (8 / bits) as usize;
    let byte = u32::from(packed[index / in_a_byte]);
    byte / 2u32.pow(bits * (index % in_a_byte) as u32) % 2u32.pow(bits)
}

pub fn size(dims: u32, bits: u32, out: &[u8]) -> (u32, Vec<u8>) {
    let number = if bad_dims(dims) {
        BAD_DIMS
    } else if bad_width(bits) {
        BAD_WIDTH
    } else if out.len() != 4 {
        BAD_LENGTH
    } else {
        ACCEPTED
    };
    after(number, out, || (size_of(dims, bits) as u32).to_le_bytes().to_vec())
}

pub fn pack(dims: u32, bits: u32, codes: &[u8], out: &[u8]) -> (u32, Vec<u8>) {
    let number = if bad_dims(dims) {
        BAD_DIMS
    } else if bad_width(bits) {
        BAD_WIDTH
    } else if codes.len() != dims as usize || out.len() != size_of(dims, bits) {
        BAD_LENGTH
    } else if codes.iter().any(|code| u32::from(*code) > top(bits)) {
        BAD_VALUE
    } else {
        ACCEPTED
    };
    after(number, out, || packed(bits, codes))
}

pub fn read(dims: u32, bits: u32, packed: &[u8], index: u32, out: &[u8]) -> (u32, Vec<u8>) {
    let number = if bad_dims(dims) {
        BAD_DIMS
    } else if bad_width(bits) {
        BAD_WIDTH
    } else if packed.len() != size_of(dims, bits) || out.len() != 4 {
        BAD_LENGTH
    } else if index >= dims {
        OUT_OF_RANGE
    } else {
        ACCEPTED
    };
    after(number, out, || digit(bits, packed, index as usize).to_le_bytes().to_vec())
}
