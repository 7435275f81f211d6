//! Module 5: 32 single codes as one block, laid out so that all of them are summed at once.

use crate::bytes::{number, saturated};
use crate::refusal::judge;
use crate::{code, sys, Refusal};

/// Lanes of a block: how many single codes it holds.
pub const LANES: usize = 32;

/// Bytes of a block: 512 and 16 for each four dimensions begun.
///
/// # Errors
/// [`Refusal::BadDims`].
///
/// ```
/// use lintelkite::block;
///
/// assert_eq!(block::size(65), Ok(784));
/// ```
pub fn size(dims: usize) -> Result<usize, Refusal> {
    let size = number(|out, len| unsafe { sys::lk_block_size(saturated(dims), out, len) })?;
    Ok(size as usize)
}

/// Packs exactly 32 single codes, laid end to end, into a block.
///
/// # Errors
/// [`Refusal::BadDims`]; [`Refusal::BadLength`] where the codes are not 32.
///
/// ```
/// use lintelkite::{block, code, Factors, Refusal};
///
/// let code = code::encode(Factors::default(), &[1.0, -1.0, 1.0])?;
/// let block = block::pack(3, &code.repeat(32))?;
/// assert_eq!(block[512..], [0b0101_0101; 16]);
/// assert_eq!(block::pack(3, &code.repeat(31)), Err(Refusal::BadLength));
/// # Ok::<(), lintelkite::Refusal>(())
/// ```
pub fn pack(dims: usize, codes: &[u8]) -> Result<Vec<u8>, Refusal> {
    let mut block = vec![0; size(dims)?];
    pack_into(dims, codes, &mut block)?;
    Ok(block)
}

/// As [`pack`], into a lent slice of [`size`] bytes.
///
/// # Errors
/// As [`pack`], and [`Refusal::BadLength`] for the block's slice too.
///
/// ```
/// use lintelkite::block;
///
/// let mut block = [0xFF; 528];
/// block::pack_into(1, &[0; 32 * 24], &mut block)?;
/// assert_eq!(block, [0; 528]);
/// # Ok::<(), lintelkite::Refusal>(())
/// ```
pub fn pack_into(dims: usize, codes: &[u8], block: &mut [u8]) -> Result<(), Refusal> {
    judge(unsafe { sys::lk_block_pack(saturated(dims), codes.as_ptr(), codes.len(), block.as_mut_ptr(), block.len()) })
}

/// Reads a lane of a block back as the single code it was. Bits past dims are 0.
///
/// # Errors
/// [`Refusal::BadDims`], [`Refusal::BadLength`]; [`Refusal::OutOfRange`] where the lane is above 31.
///
/// ```
/// use lintelkite::{block, code, Factors};
///
/// let code = code::encode(Factors { dis_u_2: 2.0, ..Factors::default() }, &[1.0, -1.0, 1.0])?;
/// let block = block::pack(3, &code.repeat(32))?;
/// assert_eq!(block::lane(3, &block, 31)?, code);
/// # Ok::<(), lintelkite::Refusal>(())
/// ```
pub fn lane(dims: usize, block: &[u8], lane: usize) -> Result<Vec<u8>, Refusal> {
    let mut code = vec![0; code::size(dims)?];
    lane_into(dims, block, lane, &mut code)?;
    Ok(code)
}

/// As [`lane`], into a lent slice of [`code::size`] bytes.
///
/// # Errors
/// As [`lane`], and [`Refusal::BadLength`] for the code's slice too.
///
/// ```
/// use lintelkite::{block, Refusal};
///
/// let mut code = [0xFF; 24];
/// assert_eq!(block::lane_into(1, &[0; 528], 32, &mut code), Err(Refusal::OutOfRange));
/// assert_eq!(code, [0xFF; 24]);
/// block::lane_into(1, &[0; 528], 0, &mut code)?;
/// assert_eq!(code, [0; 24]);
/// # Ok::<(), Refusal>(())
/// ```
pub fn lane_into(dims: usize, block: &[u8], lane: usize, code: &mut [u8]) -> Result<(), Refusal> {
    judge(unsafe {
        sys::lk_block_lane(saturated(dims), block.as_ptr(), block.len(), saturated(lane), code.as_mut_ptr(), code.len())
    })
}
