//! Module 6: sums of query codes. A query has one code of at most 15 for each dimension.

use crate::block::LANES;
use crate::bytes::{number, saturated};
use crate::refusal::judge;
use crate::{sys, Refusal};

/// The sum of all query codes.
///
/// # Errors
/// [`Refusal::BadDims`]; [`Refusal::BadValue`] where a query code is above 15.
///
/// ```
/// use lintelkite::sums;
///
/// assert_eq!(sums::query_sum(&[3, 0, 15, 8, 1]), Ok(27));
/// ```
pub fn query_sum(query: &[u8]) -> Result<u32, Refusal> {
    number(|out, len| unsafe { sys::lk_query_sum(saturated(query.len()), query.as_ptr(), query.len(), out, len) })
}

/// The sum of the query codes at the bits that are set in a single code.
///
/// # Errors
/// As [`query_sum`], and [`Refusal::BadLength`].
///
/// ```
/// use lintelkite::{code, sums, Factors};
///
/// let code = code::encode(Factors::default(), &[1.0, -1.0, 1.0, 1.0, -1.0])?;
/// assert_eq!(sums::code_sum(&[3, 0, 15, 8, 1], &code)?, 26);
/// # Ok::<(), lintelkite::Refusal>(())
/// ```
pub fn code_sum(query: &[u8], code: &[u8]) -> Result<u32, Refusal> {
    number(|out, len| unsafe {
        sys::lk_code_sum(saturated(query.len()), query.as_ptr(), query.len(), code.as_ptr(), code.len(), out, len)
    })
}

/// The 32 sums of a block, lane 0 first.
///
/// # Errors
/// As [`code_sum`].
///
/// ```
/// use lintelkite::{block, code, sums, Factors};
///
/// let query = [3, 0, 15, 8, 1];
/// let code = code::encode(Factors::default(), &[1.0, -1.0, 1.0, 1.0, -1.0])?;
/// let block = block::pack(5, &code.repeat(32))?;
/// assert_eq!(sums::block_sums(&query, &block)?, [26; 32]);
/// # Ok::<(), lintelkite::Refusal>(())
/// ```
pub fn block_sums(query: &[u8], block: &[u8]) -> Result<[u32; LANES], Refusal> {
    let mut out = [0; 4 * LANES];
    judge(unsafe {
        sys::lk_block_sums(
            saturated(query.len()),
            query.as_ptr(),
            query.len(),
            block.as_ptr(),
            block.len(),
            out.as_mut_ptr(),
            out.len(),
        )
    })?;
    let mut sums = [0; LANES];
    for (sum, bytes) in sums.iter_mut().zip(out.chunks_exact(4)) {
        *sum = u32::from_le_bytes([bytes[0], bytes[1], bytes[2], bytes[3]]);
    }
    Ok(sums)
}
