//! Module 7: what a code says of its distance from a query, and a lower bound of it.

use crate::block::LANES;
use crate::bytes::{of_floats_mut, saturated};
use crate::refusal::judge;
use crate::{sys, Metric, Refusal};

/// A query: a vector whose numbers are about `b + k * code`, and the square of its length.
///
/// The crate's [first page](crate#a-search-from-end-to-end) shows how it is made of a vector.
///
/// ```
/// use lintelkite::{estimate, code, Factors, Metric, Query};
///
/// let query = Query { dis_v_2: 4.0, b: 0.0, k: 1.0, codes: &[3, 0, 15, 8, 1] };
/// let factors = Factors { dis_u_2: 1.0, factor_ppc: 0.0, factor_ip: -0.5, factor_err: 0.0 };
/// let code = code::encode(factors, &[1.0, -1.0, 1.0, 1.0, -1.0])?;
/// assert_eq!(estimate::code_rough(Metric::L2, &query, &code)?, -7.5);
/// # Ok::<(), lintelkite::Refusal>(())
/// ```
#[derive(Clone, Copy, Debug, PartialEq)]
pub struct Query<'a> {
    /// The square of the vector's length: finite, not below 0.
    pub dis_v_2: f32,
    /// The number that code 0 stands for.
    pub b: f32,
    /// The step from a code to the next.
    pub k: f32,
    /// A code of at most 15 for each dimension.
    pub codes: &'a [u8],
}

/// A call of module 7: the four have their parameters in common.
type Call = unsafe extern "C" fn(
    metric: u32,
    dims: u32,
    dis_v_2: f32,
    b: f32,
    k: f32,
    query: *const u8,
    query_len: usize,
    record: *const u8,
    record_len: usize,
    out: *mut u8,
    out_len: usize,
) -> u32;

/// The estimates that a call writes: one of a single code, 32 of a block. The call is one of the four.
fn ask<const N: usize>(call: Call, metric: Metric, query: &Query, record: &[u8]) -> Result<[f32; N], Refusal> {
    let Query { dis_v_2, b, k, codes } = *query;
    let mut estimates = [0.0; N];
    let out = of_floats_mut(&mut estimates);
    judge(unsafe {
        call(
            metric.number(),
            saturated(codes.len()),
            dis_v_2,
            b,
            k,
            codes.as_ptr(),
            codes.len(),
            record.as_ptr(),
            record.len(),
            out.as_mut_ptr(),
            out.len(),
        )
    })?;
    Ok(estimates)
}

/// The rough estimate of a single code.
///
/// # Errors
/// [`Refusal::BadDims`], [`Refusal::BadLength`]; [`Refusal::Missing`] where `dis_v_2`, `b` or `k` is not finite;
/// [`Refusal::BadValue`] where `dis_v_2` is below 0 or a query code above 15; [`Refusal::NoEstimate`] where the estimate
/// is a NaN.
///
/// ```
/// use lintelkite::{estimate, code, Factors, Metric, Query};
///
/// let query = Query { dis_v_2: 4.0, b: 0.0, k: 1.0, codes: &[3, 0, 15, 8, 1] };
/// let factors = Factors { factor_ip: -0.5, ..Factors::default() };
/// let code = code::encode(factors, &[1.0, -1.0, 1.0, 1.0, -1.0])?;
/// assert_eq!(estimate::code_rough(Metric::Dot, &query, &code)?, -6.25);
/// # Ok::<(), lintelkite::Refusal>(())
/// ```
pub fn code_rough(metric: Metric, query: &Query, code: &[u8]) -> Result<f32, Refusal> {
    ask(sys::lk_code_rough, metric, query, code).map(|[estimate]| estimate)
}

/// The lower bound of a single code: the rough estimate less 1.9 times the error.
///
/// # Errors
/// As [`code_rough`].
///
/// ```
/// use lintelkite::{estimate, code, Factors, Metric, Query};
///
/// let query = Query { dis_v_2: 4.0, b: 0.0, k: 1.0, codes: &[3, 0, 15, 8, 1] };
/// let factors = Factors { dis_u_2: 1.0, factor_ppc: 0.0, factor_ip: -0.5, factor_err: 0.5 };
/// let code = code::encode(factors, &[1.0, -1.0, 1.0, 1.0, -1.0])?;
/// assert_eq!(estimate::code_lower_bound(Metric::L2, &query, &code)?, -7.5 - 1.9);
/// # Ok::<(), lintelkite::Refusal>(())
/// ```
pub fn code_lower_bound(metric: Metric, query: &Query, code: &[u8]) -> Result<f32, Refusal> {
    ask(sys::lk_code_lower_bound, metric, query, code).map(|[bound]| bound)
}

/// The rough estimates of a block, lane 0 first. Each is that of its lane's single code, or a NaN where the single call
/// refuses with [`Refusal::NoEstimate`].
///
/// # Errors
/// As [`code_rough`], but never [`Refusal::NoEstimate`].
///
/// ```
/// use lintelkite::{block, code, estimate, Factors, Metric, Query};
///
/// let query = Query { dis_v_2: 4.0, b: 0.0, k: 1.0, codes: &[3, 0, 15, 8, 1] };
/// let factors = Factors { dis_u_2: 1.0, factor_ip: -0.5, ..Factors::default() };
/// let code = code::encode(factors, &[1.0, -1.0, 1.0, 1.0, -1.0])?;
/// let block = block::pack(5, &code.repeat(32))?;
/// assert_eq!(estimate::block_rough(Metric::L2, &query, &block)?, [-7.5; 32]);
/// # Ok::<(), lintelkite::Refusal>(())
/// ```
pub fn block_rough(metric: Metric, query: &Query, block: &[u8]) -> Result<[f32; LANES], Refusal> {
    ask(sys::lk_block_rough, metric, query, block)
}

/// The lower bounds of a block, lane 0 first; a NaN as [`block_rough`] has it.
///
/// # Errors
/// As [`block_rough`].
///
/// ```
/// use lintelkite::{block, code, estimate, Factors, Metric, Query};
///
/// let query = Query { dis_v_2: 4.0, b: 0.0, k: 1.0, codes: &[3, 0, 15, 8, 1] };
/// let factors = Factors { dis_u_2: 1.0, factor_ip: -0.5, factor_err: f32::NAN, ..Factors::default() };
/// let code = code::encode(factors, &[1.0, -1.0, 1.0, 1.0, -1.0])?;
/// let block = block::pack(5, &code.repeat(32))?;
/// assert!(estimate::block_lower_bounds(Metric::L2, &query, &block)?[0].is_nan());
/// # Ok::<(), lintelkite::Refusal>(())
/// ```
pub fn block_lower_bounds(metric: Metric, query: &Query, block: &[u8]) -> Result<[f32; LANES], Refusal> {
    ask(sys::lk_block_lower_bounds, metric, query, block)
}
