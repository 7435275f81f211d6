//! Module 7, estimates: the calls on slices. The four have the same parameters.

use crate::paper::estimate::{Asked, Query};
use crate::sys;

type Call = unsafe extern "C" fn(u32, u32, f32, f32, f32, *const u8, usize, *const u8, usize, *mut u8, usize) -> u32;

fn ask(call: Call, query: Query, record: &[u8], out: &mut [u8]) -> u32 {
    let Query { metric, dims, dis_v_2, b, k, codes } = query;
    let (c, r, o) = (codes.as_ptr(), record.as_ptr(), out.as_mut_ptr());
    unsafe { call(metric, dims, dis_v_2, b, k, c, codes.len(), r, record.len(), o, out.len()) }
}

pub fn code(query: Query, asked: Asked, code: &[u8], out: &mut [u8]) -> u32 {
    let call = match asked {
        Asked::Rough => sys::lk_code_rough,
        Asked::LowerBound => sys::lk_code_lower_bound,
    };
    ask(call, query, code, out)
}

pub fn block(query: Query, asked: Asked, block: &[u8], out: &mut [u8]) -> u32 {
    let call = match asked {
        Asked::Rough => sys::lk_block_rough,
        Asked::LowerBound => sys::lk_block_lower_bounds,
    };
    ask(call, query, block, out)
}
