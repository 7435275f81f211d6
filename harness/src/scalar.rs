//! Module 2, scalar quantizer: the calls on slices.

use crate::sys;

pub fn encode(dims: u32, bits: u32, vector: &[u8], min: &[u8], max: &[u8], code: &mut [u8]) -> u32 {
    unsafe {
        sys::lk_scalar_encode(
            dims,
            bits,
            vector.as_ptr(),
            vector.len(),
            min.as_ptr(),
            min.len(),
            max.as_ptr(),
            max.len(),
            code.as_mut_ptr(),
            code.len(),
        )
    }
}

pub fn table(metric: u32, dims: u32, bits: u32, vector: &[u8], min: &[u8], max: &[u8], table: &mut [u8]) -> u32 {
    unsafe {
        sys::lk_scalar_table(
            metric,
            dims,
            bits,
            vector.as_ptr(),
            vector.len(),
            min.as_ptr(),
            min.len(),
            max.as_ptr(),
            max.len(),
            table.as_mut_ptr(),
            table.len(),
        )
    }
}

pub fn distance(metric: u32, dims: u32, bits: u32, table: &[u8], code: &[u8], out: &mut [u8]) -> u32 {
    unsafe {
        sys::lk_scalar_distance(
            metric,
            dims,
            bits,
            table.as_ptr(),
            table.len(),
            code.as_ptr(),
            code.len(),
            out.as_mut_ptr(),
            out.len(),
        )
    }
}
