//! Floats and little-endian bytes.
//!
//! Records and codes hold their floats as little-endian bytes, at any address. The archive is for x86-64 alone, which is
//! little-endian itself: floats in memory are those bytes already, so a view costs nothing.

use crate::Refusal;
use std::{mem, slice};

#[cfg(not(target_arch = "x86_64"))]
compile_error!("liblintelkite.a is built for x86-64");

/// The bytes of some floats, four each, without a copy.
///
/// ```
/// use lintelkite::bytes;
///
/// assert_eq!(bytes::of_floats(&[1.0, -2.0]), [0, 0, 0x80, 0x3F, 0, 0, 0, 0xC0]);
/// ```
#[must_use]
pub fn of_floats(floats: &[f32]) -> &[u8] {
    // Every byte of a float is a byte, and the length is the same in bytes.
    unsafe { slice::from_raw_parts(floats.as_ptr().cast(), mem::size_of_val(floats)) }
}

/// The bytes of some floats, to be written. Any four bytes are a float.
///
/// ```
/// use lintelkite::bytes;
///
/// let mut floats = [0.0; 2];
/// bytes::of_floats_mut(&mut floats)[7] = 0xC0;
/// assert_eq!(floats, [0.0, -2.0]);
/// ```
pub fn of_floats_mut(floats: &mut [f32]) -> &mut [u8] {
    unsafe { slice::from_raw_parts_mut(floats.as_mut_ptr().cast(), mem::size_of_val(floats)) }
}

/// The floats that stand in some bytes, at any address.
///
/// # Errors
/// [`Refusal::BadLength`]: the bytes are not a whole number of floats.
///
/// ```
/// use lintelkite::{bytes, Refusal};
///
/// assert_eq!(bytes::to_floats(&[0, 0, 0x80, 0x3F]), Ok(vec![1.0]));
/// assert_eq!(bytes::to_floats(&[0, 0, 0x80]), Err(Refusal::BadLength));
/// ```
pub fn to_floats(bytes: &[u8]) -> Result<Vec<f32>, Refusal> {
    let mut floats = vec![0.0; bytes.len() / 4];
    to_floats_into(bytes, &mut floats)?;
    Ok(floats)
}

/// As [`to_floats`], into a lent slice.
///
/// # Errors
/// [`Refusal::BadLength`]: the bytes are not four for each float.
///
/// ```
/// use lintelkite::bytes;
///
/// let mut floats = [0.0; 2];
/// bytes::to_floats_into(&[0, 0, 0x80, 0x3F, 0, 0, 0, 0xC0], &mut floats)?;
/// assert_eq!(floats, [1.0, -2.0]);
/// # Ok::<(), lintelkite::Refusal>(())
/// ```
pub fn to_floats_into(bytes: &[u8], floats: &mut [f32]) -> Result<(), Refusal> {
    let lent = of_floats_mut(floats);
    if lent.len() != bytes.len() {
        return Err(Refusal::BadLength);
    }
    lent.copy_from_slice(bytes);
    Ok(())
}

/// The bytes of some numbers, to be written.
pub(crate) fn of_numbers_mut(numbers: &mut [u32]) -> &mut [u8] {
    unsafe { slice::from_raw_parts_mut(numbers.as_mut_ptr().cast(), mem::size_of_val(numbers)) }
}

/// Dims, an index, a lane or a place in 32 bits. One that they cannot hold becomes the greatest, above every limit.
pub(crate) fn saturated(number: usize) -> u32 {
    u32::try_from(number).unwrap_or(u32::MAX)
}

/// A number that a call writes, and what the call says.
pub(crate) fn number(call: impl FnOnce(*mut u8, usize) -> u32) -> Result<u32, Refusal> {
    let mut out = [0; 4];
    crate::refusal::judge(call(out.as_mut_ptr(), out.len()))?;
    Ok(u32::from_le_bytes(out))
}

/// A float that a call writes, and what the call says.
pub(crate) fn float(call: impl FnOnce(*mut u8, usize) -> u32) -> Result<f32, Refusal> {
    number(call).map(f32::from_bits)
}
