//! Module 4, single code: the calls on slices.

use crate::sys;

pub fn size(dims: u32, out: &mut [u8]) -> u32 {
    unsafe { sys::lk_code_size(dims, out.as_mut_ptr(), out.len()) }
}

pub fn encode(dims: u32, factors: &[u8], vector: &[u8], code: &mut [u8]) -> u32 {
    unsafe {
        sys::lk_code_encode(
            dims,
            factors.as_ptr(),
            factors.len(),
            vector.as_ptr(),
            vector.len(),
            code.as_mut_ptr(),
            code.len(),
        )
    }
}

pub fn bit(dims: u32, code: &[u8], index: u32, out: &mut [u8]) -> u32 {
    unsafe { sys::lk_code_bit(dims, code.as_ptr(), code.len(), index, out.as_mut_ptr(), out.len()) }
}
