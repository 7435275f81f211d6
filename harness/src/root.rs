//! Module 3, square root: the call on a slice.

use crate::sys;

pub fn root(x: f32, out: &mut [u8]) -> u32 {
    unsafe { sys::lk_root(x, out.as_mut_ptr(), out.len()) }
}
