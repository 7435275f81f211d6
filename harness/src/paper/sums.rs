//! Module 6. The query codes at a code's set bits, added up, and all of them added up.

use super::code::{self, bad_dims};
use super::{after, block, first};
use crate::refusal::*;

/// Whether a query code has more than four bits.
pub fn above_top(query: &[u8]) -> bool {
    query.iter().any(|code| *code > 15)
}

pub fn of_code(query: &[u8], single: &[u8]) -> u32 {
    (0..query.len()).filter(|i| code::bit_at(single, *i)).map(|i| u32::from(query[i])).sum()
}

pub fn of_lane(query: &[u8], bytes: &[u8], lane: usize) -> u32 {
    (0..query.len()).filter(|i| block::bit_at(bytes, lane, *i)).map(|i| u32::from(query[i])).sum()
}

pub fn of_query(query: &[u8]) -> u32 {
    query.iter().map(|code| u32::from(*code)).sum()
}

pub fn query(dims: u32, query: &[u8], out: &[u8]) -> (u32, Vec<u8>) {
    let number = first(&[
        (BAD_DIMS, &|| bad_dims(dims)),
        (BAD_LENGTH, &|| query.len() != dims as usize || out.len() != 4),
        (BAD_VALUE, &|| above_top(query)),
    ]);
    after(number, out, || of_query(query).to_le_bytes().to_vec())
}

pub fn code(dims: u32, query: &[u8], code: &[u8], out: &[u8]) -> (u32, Vec<u8>) {
    let number = first(&[
        (BAD_DIMS, &|| bad_dims(dims)),
        (BAD_LENGTH, &|| query.len() != dims as usize || code.len() != code::size_of(dims) || out.len() != 4),
        (BAD_VALUE, &|| above_top(query)),
    ]);
    after(number, out, || of_code(query, code).to_le_bytes().to_vec())
}

pub fn block(dims: u32, query: &[u8], block: &[u8], out: &[u8]) -> (u32, Vec<u8>) {
    let number = first(&[
        (BAD_DIMS, &|| bad_dims(dims)),
        (BAD_LENGTH, &|| query.len() != dims as usize || block.len() != block::size_of(dims) || out.len() != 128),
        (BAD_VALUE, &|| above_top(query)),
    ]);
    after(number, out, || (0..32).flat_map(|lane| of_lane(query, block, lane).to_le_bytes()).collect())
}
