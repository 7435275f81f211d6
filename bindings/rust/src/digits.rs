//! Module 1: codes of 1, 2, 4 or 8 bits, packed into bytes, lowest bits first.

use crate::bytes::{number, saturated};
use crate::refusal::judge;
use crate::{sys, Refusal};

/// How many bits a code takes.
///
/// ```
/// use lintelkite::Width;
///
/// assert_eq!((Width::Four.levels(), Width::Four.top(), Width::Four.codes_per_byte()), (16, 15, 2));
/// ```
#[derive(Clone, Copy, Debug, PartialEq, Eq, PartialOrd, Ord, Hash)]
#[repr(u32)]
pub enum Width {
    /// One bit: codes 0 and 1.
    One = 1,
    /// Two bits: codes up to 3.
    Two = 2,
    /// Four bits: codes up to 15.
    Four = 4,
    /// Eight bits: codes up to 255.
    Eight = 8,
}

impl Width {
    /// Every width, narrowest first.
    pub const ALL: [Width; 4] = [Width::One, Width::Two, Width::Four, Width::Eight];

    /// The width of this many bits.
    ///
    /// # Errors
    /// [`Refusal::BadWidth`]: there is none.
    ///
    /// ```
    /// use lintelkite::{Refusal, Width};
    ///
    /// assert_eq!(Width::of_bits(4), Ok(Width::Four));
    /// assert_eq!(Width::of_bits(3), Err(Refusal::BadWidth));
    /// ```
    pub fn of_bits(bits: u32) -> Result<Width, Refusal> {
        Width::ALL.into_iter().find(|width| width.bits() == bits).ok_or(Refusal::BadWidth)
    }

    /// Bits of a code.
    ///
    /// ```
    /// assert_eq!(lintelkite::Width::Two.bits(), 2);
    /// ```
    #[must_use]
    pub const fn bits(self) -> u32 {
        self as u32
    }

    /// How many codes there are: 2 to the bits.
    ///
    /// ```
    /// assert_eq!(lintelkite::Width::Two.levels(), 4);
    /// ```
    #[must_use]
    pub const fn levels(self) -> usize {
        1 << self.bits()
    }

    /// The greatest code.
    ///
    /// ```
    /// assert_eq!(lintelkite::Width::Two.top(), 3);
    /// ```
    #[must_use]
    pub const fn top(self) -> u8 {
        (self.levels() - 1) as u8
    }

    /// Codes in a byte.
    ///
    /// ```
    /// assert_eq!(lintelkite::Width::Two.codes_per_byte(), 4);
    /// ```
    #[must_use]
    pub const fn codes_per_byte(self) -> usize {
        8 / self.bits() as usize
    }
}

/// Bytes that `dims` codes take.
///
/// # Errors
/// [`Refusal::BadDims`].
///
/// ```
/// use lintelkite::{digits, Width};
///
/// assert_eq!(digits::size(Width::Two, 5), Ok(2));
/// ```
pub fn size(width: Width, dims: usize) -> Result<usize, Refusal> {
    let size = number(|out, len| unsafe { sys::lk_digits_size(saturated(dims), width.bits(), out, len) })?;
    Ok(size as usize)
}

/// Packs codes, one a byte, into as few bytes as they take. The last byte is filled with zeros.
///
/// # Errors
/// [`Refusal::BadDims`]; [`Refusal::BadValue`] where a code is above [`Width::top`].
///
/// ```
/// use lintelkite::{digits, Width};
///
/// assert_eq!(digits::pack(Width::Four, &[1, 2, 3])?, [0x21, 0x03]);
/// # Ok::<(), lintelkite::Refusal>(())
/// ```
pub fn pack(width: Width, codes: &[u8]) -> Result<Vec<u8>, Refusal> {
    let mut packed = vec![0; size(width, codes.len())?];
    pack_into(width, codes, &mut packed)?;
    Ok(packed)
}

/// As [`pack`], into a lent slice of [`size`] bytes.
///
/// # Errors
/// As [`pack`], and [`Refusal::BadLength`].
///
/// ```
/// use lintelkite::{digits, Width};
///
/// let mut packed = [0; 2];
/// digits::pack_into(Width::Two, &[1, 2, 3, 0, 1], &mut packed)?;
/// assert_eq!(packed, [0x39, 0x01]);
/// # Ok::<(), lintelkite::Refusal>(())
/// ```
pub fn pack_into(width: Width, codes: &[u8], packed: &mut [u8]) -> Result<(), Refusal> {
    judge(unsafe {
        sys::lk_digits_pack(
            saturated(codes.len()),
            width.bits(),
            codes.as_ptr(),
            codes.len(),
            packed.as_mut_ptr(),
            packed.len(),
        )
    })
}

/// The code at `index` of `dims` packed codes.
///
/// # Errors
/// [`Refusal::BadDims`], [`Refusal::BadLength`]; [`Refusal::OutOfRange`] where the index is at or past dims.
///
/// ```
/// use lintelkite::{digits, Refusal, Width};
///
/// assert_eq!(digits::read(Width::Four, 3, &[0x21, 0x03], 1), Ok(2));
/// assert_eq!(digits::read(Width::Four, 3, &[0x21, 0x03], 3), Err(Refusal::OutOfRange));
/// ```
pub fn read(width: Width, dims: usize, packed: &[u8], index: usize) -> Result<u8, Refusal> {
    let code = number(|out, len| unsafe {
        let (dims, index) = (saturated(dims), saturated(index));
        sys::lk_digits_read(dims, width.bits(), packed.as_ptr(), packed.len(), index, out, len)
    })?;
    Ok(code as u8)
}
