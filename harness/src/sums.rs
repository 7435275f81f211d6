//! Module 6, sums: the calls on slices.

use crate::sys;

pub fn query(dims: u32, query: &[u8], out: &mut [u8]) -> u32 {
    unsafe { sys::lk_query_sum(dims, query.as_ptr(), query.len(), out.as_mut_ptr(), out.len()) }
}

pub fn code(dims: u32, query: &[u8], code: &[u8], out: &mut [u8]) -> u32 {
    unsafe {
        sys::lk_code_sum(dims, query.as_ptr(), query.len(), code.as_ptr(), code.len(), out.as_mut_ptr(), out.len())
    }
}

pub fn block(dims: u32, query: &[u8], block: &[u8], out: &mut [u8]) -> u32 {
    unsafe {
        sys::lk_block_sums(dims, query.as_ptr(), query.len(), block.as_ptr(), block.len(), out.as_mut_ptr(), out.len())
    }
}
