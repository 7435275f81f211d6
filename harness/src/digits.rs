//! Module 1, digits: the calls on slices.
//!
//! Safety, here and in every module of wrappers: pointer and length come from one slice, and a slice that is written is
//! lent with `&mut`, so it overlaps no other.

use crate::sys;

pub fn size(dims: u32, bits: u32, out: &mut [u8]) -> u32 {
    unsafe { sys::lk_digits_size(dims, bits, out.as_mut_ptr(), out.len()) }
}

pub fn pack(dims: u32, bits: u32, codes: &[u8], packed: &mut [u8]) -> u32 {
    unsafe { sys::lk_digits_pack(dims, bits, codes.as_ptr(), codes.len(), packed.as_mut_ptr(), packed.len()) }
}

pub fn read(dims: u32, bits: u32, packed: &[u8], index: u32, out: &mut [u8]) -> u32 {
    unsafe { sys::lk_digits_read(dims, bits, packed.as_ptr(), packed.len(), index, out.as_mut_ptr(), out.len()) }
}
