//! Module 2. The codes of a column are steps from its min to its max, and a number gets the step that is nearest to it.
//! A table has what each step adds to a distance. A distance is what the steps of a code add, from the left on, with
//! the sign turned for dot.

use super::digits::{bad_dims, bad_width, digit, packed, size_of, top};
use super::{after, first, missing, neither_1_nor_2};
use crate::bytes;
use crate::refusal::*;

/// q to the nearest whole number, the even one of two that are as near; then into 0..top.
pub fn rounded(q: f32, top: u32) -> u32 {
    if q.is_nan() || q <= 0.0 {
        return 0;
    }
    if q > top as f32 {
        return top;
    }
    let whole = q.floor();
    let rest = q - whole;
    let up = rest > 0.5 || (rest == 0.5 && whole as u32 % 2 == 1);
    (whole as u32 + u32::from(up)).min(top)
}

pub fn del(bits: u32, min: f32, max: f32) -> f32 {
    (max - min) / top(bits) as f32
}

pub fn code_of(bits: u32, x: f32, min: f32, max: f32) -> u32 {
    rounded((x - min) / del(bits, min, max), top(bits))
}

pub fn entry(metric: u32, bits: u32, x: f32, min: f32, max: f32, j: u32) -> f32 {
    let y = min + j as f32 * del(bits, min, max);
    match metric {
        1 => (x - y) * (x - y),
        _ => x * y,
    }
}

/// min is above max somewhere.
fn above(min: &[u8], max: &[u8]) -> bool {
    bytes::floats(min).iter().zip(bytes::floats(max)).any(|(min, max)| *min > max)
}

pub fn encode(dims: u32, bits: u32, vector: &[u8], min: &[u8], max: &[u8], code: &[u8]) -> (u32, Vec<u8>) {
    let floats = 4 * dims as usize;
    let number = first(&[
        (BAD_DIMS, &|| bad_dims(dims)),
        (BAD_WIDTH, &|| bad_width(bits)),
        (BAD_LENGTH, &|| [vector.len(), min.len(), max.len()] != [floats; 3] || code.len() != size_of(dims, bits)),
        (MISSING, &|| missing(vector) || missing(min) || missing(max)),
        (BAD_VALUE, &|| above(min, max)),
    ]);
    after(number, code, || {
        let (vector, min, max) = (bytes::floats(vector), bytes::floats(min), bytes::floats(max));
        let codes: Vec<u8> = (0..dims as usize).map(|i| code_of(bits, vector[i], min[i], max[i]) as u8).collect();
        packed(bits, &codes)
    })
}

pub fn table(metric: u32, dims: u32, bits: u32, vector: &[u8], min: &[u8], max: &[u8], table: &[u8]) -> (u32, Vec<u8>) {
    let floats = 4 * dims as usize;
    let number = first(&[
        (BAD_DIMS, &|| bad_dims(dims)),
        (BAD_WIDTH, &|| bad_width(bits)),
        (BAD_LENGTH, &|| [vector.len(), min.len(), max.len()] != [floats; 3] || table.len() != floats << bits),
        (MISSING, &|| missing(vector) || missing(min) || missing(max)),
        (BAD_VALUE, &|| above(min, max) || neither_1_nor_2(metric)),
    ]);
    after(number, table, || {
        let (vector, min, max) = (bytes::floats(vector), bytes::floats(min), bytes::floats(max));
        let mut entries = Vec::new();
        for i in 0..dims as usize {
            for j in 0..=top(bits) {
                entries.push(entry(metric, bits, vector[i], min[i], max[i], j));
            }
        }
        bytes::of_worked_out(&entries)
    })
}

/// The sum, before it is negated for dot.
pub fn sum(dims: u32, bits: u32, table: &[u8], code: &[u8]) -> f32 {
    let mut sum = 0.0;
    for i in 0..dims as usize {
        let at = (i << bits) + digit(bits, code, i) as usize;
        sum += f32::from_bits(u32::from_le_bytes(table[4 * at..4 * at + 4].try_into().unwrap()));
    }
    sum
}

pub fn distance(metric: u32, dims: u32, bits: u32, table: &[u8], code: &[u8], out: &[u8]) -> (u32, Vec<u8>) {
    let number = first(&[
        (BAD_DIMS, &|| bad_dims(dims)),
        (BAD_WIDTH, &|| bad_width(bits)),
        (BAD_LENGTH, &|| {
            table.len() != (4 * dims as usize) << bits || code.len() != size_of(dims, bits) || out.len() != 4
        }),
        (BAD_VALUE, &|| neither_1_nor_2(metric)),
        (NO_ESTIMATE, &|| sum(dims, bits, table, code).is_nan()),
    ]);
    after(number, out, || {
        let sum = sum(dims, bits, table, code);
        bytes::of_floats(&[if metric == 1 { sum } else { -sum }])
    })
}

/// Dims or width are refused.
pub fn bad(dims: u32, bits: u32) -> bool {
    bad_dims(dims) || bad_width(bits)
}
