//! Module 7. The formulas stand in `rough`, `err` and `lower_bound`, their operations in the paper's order. Each one
//! rounds to an f32.

use super::code::{self, bad_dims};
use super::{after, block, first, neither_1_nor_2, root, sums};
use crate::bytes;
use crate::refusal::*;

pub const EPSILON: f32 = f32::from_bits(0x3FF3_3333);

/// The query record and its codes, with the metric and the dims that a call is given beside them.
#[derive(Debug, Clone, Copy)]
pub struct Query<'a> {
    pub metric: u32,
    pub dims: u32,
    pub dis_v_2: f32,
    pub b: f32,
    pub k: f32,
    pub codes: &'a [u8],
}

/// dis_u_2, factor_ppc, factor_ip, factor_err.
pub type Factors = [f32; 4];

impl Query<'_> {
    pub fn missing(&self) -> bool {
        ![self.dis_v_2, self.b, self.k].iter().all(|x| x.is_finite())
    }

    pub fn bad_value(&self) -> bool {
        sums::above_top(self.codes) || self.dis_v_2 < 0.0 || neither_1_nor_2(self.metric)
    }

    pub fn rough(&self, [dis_u_2, factor_ppc, factor_ip, _]: Factors, sum: u32) -> f32 {
        let s = sum as f32;
        let q = sums::of_query(self.codes) as f32;
        let product = (((2.0 * s) - q) * factor_ip) * self.k;
        match self.metric {
            1 => ((dis_u_2 + self.dis_v_2) + self.b * factor_ppc) + product,
            _ => 0.5 * (self.b * factor_ppc) + 0.5 * product,
        }
    }

    pub fn err(&self, factors: Factors) -> f32 {
        let err = factors[3] * root::root(self.dis_v_2);
        match self.metric {
            1 => err,
            _ => 0.5 * err,
        }
    }

    pub fn lower_bound(&self, factors: Factors, sum: u32) -> f32 {
        self.rough(factors, sum) - EPSILON * self.err(factors)
    }
}

pub fn factors_of_code(code: &[u8]) -> Factors {
    bytes::floats(&code[..16]).try_into().unwrap()
}

pub fn factors_of_lane(bytes: &[u8], lane: usize) -> Factors {
    [0, 1, 2, 3].map(|f| bytes::floats(&bytes[block::factor(f, lane)])[0])
}

/// What a call asks for.
#[derive(Debug, Clone, Copy, PartialEq)]
pub enum Asked {
    Rough,
    LowerBound,
}

pub fn of_code(query: Query, asked: Asked, code: &[u8]) -> f32 {
    let (factors, sum) = (factors_of_code(code), sums::of_code(query.codes, code));
    match asked {
        Asked::Rough => query.rough(factors, sum),
        Asked::LowerBound => query.lower_bound(factors, sum),
    }
}

pub fn of_lane(query: Query, asked: Asked, block: &[u8], lane: usize) -> f32 {
    let (factors, sum) = (factors_of_lane(block, lane), sums::of_lane(query.codes, block, lane));
    match asked {
        Asked::Rough => query.rough(factors, sum),
        Asked::LowerBound => query.lower_bound(factors, sum),
    }
}

pub fn code(query: Query, asked: Asked, code: &[u8], out: &[u8]) -> (u32, Vec<u8>) {
    let dims = query.dims;
    let number = first(&[
        (BAD_DIMS, &|| bad_dims(dims)),
        (BAD_LENGTH, &|| query.codes.len() != dims as usize || code.len() != code::size_of(dims) || out.len() != 4),
        (MISSING, &|| query.missing()),
        (BAD_VALUE, &|| query.bad_value()),
        (NO_ESTIMATE, &|| of_code(query, asked, code).is_nan()),
    ]);
    after(number, out, || bytes::of_floats(&[of_code(query, asked, code)]))
}

pub fn block(query: Query, asked: Asked, block: &[u8], out: &[u8]) -> (u32, Vec<u8>) {
    let dims = query.dims;
    let number = first(&[
        (BAD_DIMS, &|| bad_dims(dims)),
        (BAD_LENGTH, &|| query.codes.len() != dims as usize || block.len() != block::size_of(dims) || out.len() != 128),
        (MISSING, &|| query.missing()),
        (BAD_VALUE, &|| query.bad_value()),
    ]);
    after(number, out, || {
        let lanes: Vec<f32> = (0..32).map(|lane| of_lane(query, asked, block, lane)).collect();
        bytes::of_worked_out(&lanes)
    })
}
