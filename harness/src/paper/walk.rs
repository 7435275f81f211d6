//! Module 8. The ids of a range, from the first to the last, each with its record's lower bound and the mark of a place
//! that waits. Nothing is written past them. A range whose end is not above its start has no ids.

use super::code::{self, bad_dims};
use super::estimate::{self, Asked, Query};
use super::{block, first, neither_1_nor_2};
use crate::bytes;
use crate::refusal::*;

pub const MOST_RECORDS: u32 = 1_048_576;
pub const MOST_PLACES: usize = 4_096;

#[derive(Debug, Clone, Copy)]
pub struct Walk<'a> {
    pub query: Query<'a>,
    pub layout: u32,
    pub records: &'a [u8],
    pub n: u32,
    pub start: u32,
    pub end: u32,
}

/// The bytes that n records take.
pub fn records_len(layout: u32, dims: u32, n: u32) -> usize {
    match layout {
        1 => n as usize * code::size_of(dims),
        _ => (n as usize).div_ceil(32) * block::size_of(dims),
    }
}

impl Walk<'_> {
    pub fn bound(&self, id: u32) -> f32 {
        let (dims, id) = (self.query.dims, id as usize);
        match self.layout {
            1 => {
                let code = &self.records[id * code::size_of(dims)..][..code::size_of(dims)];
                estimate::of_code(self.query, Asked::LowerBound, code)
            }
            _ => {
                let block = &self.records[id / 32 * block::size_of(dims)..][..block::size_of(dims)];
                estimate::of_lane(self.query, Asked::LowerBound, block, id % 32)
            }
        }
    }
}

/// The lists are ids, bounds, marks and the count.
pub fn call(walk: Walk, lists: &[Vec<u8>]) -> (u32, Vec<Vec<u8>>) {
    let Walk { query, layout, records, n, start, end } = walk;
    let dims = query.dims;
    let places = lists[2].len();
    let empty = start >= end;
    let bounds: Vec<f32> = if !bad_dims(dims)
        && query.codes.len() == dims as usize
        && !neither_1_nor_2(layout)
        && n <= MOST_RECORDS
        && records.len() == records_len(layout, dims, n)
        && end <= n
        && (empty || (end - start) as usize <= places.min(MOST_PLACES))
    {
        (start..end).map(|id| walk.bound(id)).collect()
    } else {
        Vec::new()
    };
    let number = first(&[
        (BAD_DIMS, &|| bad_dims(dims)),
        (BAD_LENGTH, &|| {
            query.codes.len() != dims as usize
                || n > MOST_RECORDS
                || (!neither_1_nor_2(layout) && records.len() != records_len(layout, dims, n))
                || places > MOST_PLACES
                || lists[0].len() != 4 * places
                || lists[1].len() != 4 * places
                || lists[3].len() != 4
        }),
        (MISSING, &|| query.missing()),
        (BAD_VALUE, &|| query.bad_value() || neither_1_nor_2(layout)),
        (OUT_OF_RANGE, &|| !empty && end > n),
        (NO_ROOM, &|| !empty && (end - start) as usize > places),
        (NO_ESTIMATE, &|| bounds.iter().any(|bound| bound.is_nan())),
    ]);
    let mut lists = lists.to_vec();
    if number == ACCEPTED {
        let ids: Vec<u32> = (start..end).collect();
        lists[0][..4 * ids.len()].copy_from_slice(&bytes::of_words(&ids));
        lists[1][..4 * ids.len()].copy_from_slice(&bytes::of_floats(&bounds));
        lists[2][..ids.len()].fill(0);
        lists[3] = bytes::of_words(&[ids.len() as u32]);
    }
    (number, lists)
}
