//! Module 5, block: the calls on slices.

use crate::sys;

pub fn size(dims: u32, out: &mut [u8]) -> u32 {
    unsafe { sys::lk_block_size(dims, out.as_mut_ptr(), out.len()) }
}

pub fn pack(dims: u32, codes: &[u8], block: &mut [u8]) -> u32 {
    unsafe { sys::lk_block_pack(dims, codes.as_ptr(), codes.len(), block.as_mut_ptr(), block.len()) }
}

pub fn lane(dims: u32, block: &[u8], lane: u32, code: &mut [u8]) -> u32 {
    unsafe { sys::lk_block_lane(dims, block.as_ptr(), block.len(), lane, code.as_mut_ptr(), code.len()) }
}
