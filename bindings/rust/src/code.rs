//! Module 4: the single code of a vector. Four factors, then one bit for each dimension.

use crate::bytes::{number, of_floats, saturated};
use crate::refusal::judge;
use crate::{sys, Refusal};

/// The four numbers that stand in front of a code's bits. They are copied bit for bit, whatever they are.
///
/// The crate's [first page](crate#a-search-from-end-to-end) shows how they are made of a vector.
///
/// ```
/// use lintelkite::{code, Factors};
///
/// let factors = Factors { dis_u_2: 1.0, factor_ppc: 0.0, factor_ip: -0.5, factor_err: 0.25 };
/// let code = code::encode(factors, &[1.0, -1.0])?;
/// assert_eq!(Factors::of_code(&code), Some(factors));
/// # Ok::<(), lintelkite::Refusal>(())
/// ```
#[derive(Clone, Copy, Debug, Default, PartialEq)]
pub struct Factors {
    /// The square of the vector's length.
    pub dis_u_2: f32,
    /// What the query's `b` is multiplied by.
    pub factor_ppc: f32,
    /// What the difference of the sums is multiplied by.
    pub factor_ip: f32,
    /// What the root of the query's `dis_v_2` is multiplied by in the error.
    pub factor_err: f32,
}

impl Factors {
    /// The 16 bytes that stand in a code.
    ///
    /// ```
    /// use lintelkite::Factors;
    ///
    /// let factors = Factors { factor_ppc: 1.0, ..Factors::default() };
    /// assert_eq!(factors.to_bytes()[4..8], [0, 0, 0x80, 0x3F]);
    /// ```
    #[must_use]
    pub fn to_bytes(self) -> [u8; 16] {
        let mut bytes = [0; 16];
        bytes.copy_from_slice(of_floats(&[self.dis_u_2, self.factor_ppc, self.factor_ip, self.factor_err]));
        bytes
    }

    /// The factors of a single code, or nothing where it has fewer than 16 bytes.
    ///
    /// ```
    /// use lintelkite::Factors;
    ///
    /// assert_eq!(Factors::of_code(&[0; 24]), Some(Factors::default()));
    /// assert_eq!(Factors::of_code(&[0; 15]), None);
    /// ```
    #[must_use]
    pub fn of_code(code: &[u8]) -> Option<Factors> {
        let at = |i: usize| Some(f32::from_le_bytes(code.get(4 * i..4 * i + 4)?.try_into().ok()?));
        Some(Factors { dis_u_2: at(0)?, factor_ppc: at(1)?, factor_ip: at(2)?, factor_err: at(3)? })
    }
}

/// Bytes of a single code: 16 and 8 for each 64 dimensions begun.
///
/// # Errors
/// [`Refusal::BadDims`].
///
/// ```
/// use lintelkite::{code, Refusal};
///
/// assert_eq!(code::size(65), Ok(32));
/// assert_eq!(code::size(4370), Err(Refusal::BadDims));
/// ```
pub fn size(dims: usize) -> Result<usize, Refusal> {
    let size = number(|out, len| unsafe { sys::lk_code_size(saturated(dims), out, len) })?;
    Ok(size as usize)
}

/// The code of a vector: its factors as they are given, and a 1 for each number whose sign bit is clear.
///
/// # Errors
/// [`Refusal::BadDims`]; [`Refusal::Missing`] at a NaN or an infinity in the vector.
///
/// ```
/// use lintelkite::{code, Factors};
///
/// let code = code::encode(Factors::default(), &[1.0, -1.0, 0.5, 0.0, -0.0])?;
/// assert_eq!(code[16..], [0b01101, 0, 0, 0, 0, 0, 0, 0]);
/// # Ok::<(), lintelkite::Refusal>(())
/// ```
pub fn encode(factors: Factors, vector: &[f32]) -> Result<Vec<u8>, Refusal> {
    let mut code = vec![0; size(vector.len())?];
    encode_into(factors, vector, &mut code)?;
    Ok(code)
}

/// As [`encode`], into a lent slice of [`size`] bytes.
///
/// # Errors
/// As [`encode`], and [`Refusal::BadLength`].
///
/// ```
/// use lintelkite::{code, Factors, Refusal};
///
/// let mut code = [0; 24];
/// code::encode_into(Factors::default(), &[1.0; 64], &mut code)?;
/// assert_eq!(code[16..], [0xFF; 8]);
/// assert_eq!(code::encode_into(Factors::default(), &[1.0; 65], &mut code), Err(Refusal::BadLength));
/// # Ok::<(), lintelkite::Refusal>(())
/// ```
pub fn encode_into(factors: Factors, vector: &[f32], code: &mut [u8]) -> Result<(), Refusal> {
    let dims = saturated(vector.len());
    let (factors, vector) = (factors.to_bytes(), of_floats(vector));
    judge(unsafe {
        sys::lk_code_encode(
            dims,
            factors.as_ptr(),
            factors.len(),
            vector.as_ptr(),
            vector.len(),
            code.as_mut_ptr(),
            code.len(),
        )
    })
}

/// The bit of a dimension.
///
/// # Errors
/// [`Refusal::BadDims`], [`Refusal::BadLength`]; [`Refusal::OutOfRange`] where the index is at or past dims.
///
/// ```
/// use lintelkite::{code, Factors};
///
/// let code = code::encode(Factors::default(), &[1.0, -1.0])?;
/// assert_eq!((code::bit(2, &code, 0)?, code::bit(2, &code, 1)?), (true, false));
/// # Ok::<(), lintelkite::Refusal>(())
/// ```
pub fn bit(dims: usize, code: &[u8], index: usize) -> Result<bool, Refusal> {
    let bit = number(|out, len| unsafe {
        sys::lk_code_bit(saturated(dims), code.as_ptr(), code.len(), saturated(index), out, len)
    })?;
    Ok(bit == 1)
}
