//! Module 2: the scalar quantizer. Each dimension has a range, and a code says where in it a number lies.

use crate::bytes::{float, of_floats, of_floats_mut, saturated};
use crate::refusal::judge;
use crate::{digits, sys, Metric, Refusal, Width};

/// The code of a vector: the levels of its numbers between `min` and `max`, packed as [`digits::pack`] packs them.
///
/// A level is rounded to the nearest, ties to even; a number outside of its range takes the end.
///
/// # Errors
/// [`Refusal::BadDims`]; [`Refusal::BadLength`] where the three slices differ in length; [`Refusal::Missing`] at a NaN
/// or an infinity; [`Refusal::BadValue`] where a min is above its max.
///
/// ```
/// use lintelkite::{digits, scalar, Width};
///
/// let (min, max) = ([0.0; 4], [15.0; 4]);
/// let code = scalar::encode(Width::Four, &[2.5, 3.5, -1.0, 99.0], &min, &max)?;
/// assert_eq!(code, digits::pack(Width::Four, &[2, 4, 0, 15])?);
/// # Ok::<(), lintelkite::Refusal>(())
/// ```
pub fn encode(width: Width, vector: &[f32], min: &[f32], max: &[f32]) -> Result<Vec<u8>, Refusal> {
    let mut code = vec![0; digits::size(width, vector.len())?];
    encode_into(width, vector, min, max, &mut code)?;
    Ok(code)
}

/// As [`encode`], into a lent slice of [`digits::size`] bytes.
///
/// # Errors
/// As [`encode`], and [`Refusal::BadLength`] for the code's slice too.
///
/// ```
/// use lintelkite::{scalar, Width};
///
/// let mut code = [0; 1];
/// scalar::encode_into(Width::Two, &[0.0, 1.0, 2.0, 3.0], &[0.0; 4], &[3.0; 4], &mut code)?;
/// assert_eq!(code, [0b11_10_01_00]);
/// # Ok::<(), lintelkite::Refusal>(())
/// ```
pub fn encode_into(width: Width, vector: &[f32], min: &[f32], max: &[f32], code: &mut [u8]) -> Result<(), Refusal> {
    let dims = saturated(vector.len());
    let (vector, min, max) = (of_floats(vector), of_floats(min), of_floats(max));
    judge(unsafe {
        sys::lk_scalar_encode(
            dims,
            width.bits(),
            vector.as_ptr(),
            vector.len(),
            min.as_ptr(),
            min.len(),
            max.as_ptr(),
            max.len(),
            code.as_mut_ptr(),
            code.len(),
        )
    })
}

/// The table of a query: for each dimension, what each level adds to a distance. Level j of dimension i stands at
/// `i * width.levels() + j`.
///
/// # Errors
/// As [`encode`].
///
/// ```
/// use lintelkite::{scalar, Metric, Width};
///
/// let table = scalar::table(Metric::L2, Width::Two, &[1.0], &[0.0], &[3.0])?;
/// assert_eq!(table, [1.0, 0.0, 1.0, 4.0]);
/// # Ok::<(), lintelkite::Refusal>(())
/// ```
pub fn table(metric: Metric, width: Width, vector: &[f32], min: &[f32], max: &[f32]) -> Result<Vec<f32>, Refusal> {
    digits::size(width, vector.len())?;
    let mut table = vec![0.0; vector.len() * width.levels()];
    table_into(metric, width, vector, min, max, &mut table)?;
    Ok(table)
}

/// As [`table`], into a lent slice of `vector.len() * width.levels()` floats.
///
/// # Errors
/// As [`encode`], and [`Refusal::BadLength`] for the table's slice too.
///
/// ```
/// use lintelkite::{scalar, Metric, Width};
///
/// let mut table = [0.0; 2];
/// scalar::table_into(Metric::Dot, Width::One, &[5.0], &[2.0], &[3.0], &mut table)?;
/// assert_eq!(table, [10.0, 15.0]);
/// # Ok::<(), lintelkite::Refusal>(())
/// ```
pub fn table_into(
    metric: Metric,
    width: Width,
    vector: &[f32],
    min: &[f32],
    max: &[f32],
    table: &mut [f32],
) -> Result<(), Refusal> {
    let dims = saturated(vector.len());
    let (vector, min, max) = (of_floats(vector), of_floats(min), of_floats(max));
    let table = of_floats_mut(table);
    judge(unsafe {
        sys::lk_scalar_table(
            metric.number(),
            dims,
            width.bits(),
            vector.as_ptr(),
            vector.len(),
            min.as_ptr(),
            min.len(),
            max.as_ptr(),
            max.len(),
            table.as_mut_ptr(),
            table.len(),
        )
    })
}

/// The distance of a code from the query that the table was made for: the table's entries at the code's levels, added
/// up, and negated for [`Metric::Dot`].
///
/// # Errors
/// [`Refusal::BadDims`], [`Refusal::BadLength`]; [`Refusal::NoEstimate`] where the sum is a NaN.
///
/// ```
/// use lintelkite::{scalar, Metric, Width};
///
/// let (min, max) = ([0.0; 2], [15.0; 2]);
/// let code = scalar::encode(Width::Four, &[3.0, 4.0], &min, &max)?;
/// let table = scalar::table(Metric::L2, Width::Four, &[0.0, 0.0], &min, &max)?;
/// assert_eq!(scalar::distance(Metric::L2, Width::Four, 2, &table, &code)?, 25.0);
/// # Ok::<(), lintelkite::Refusal>(())
/// ```
pub fn distance(metric: Metric, width: Width, dims: usize, table: &[f32], code: &[u8]) -> Result<f32, Refusal> {
    let table = of_floats(table);
    float(|out, len| unsafe {
        sys::lk_scalar_distance(
            metric.number(),
            saturated(dims),
            width.bits(),
            table.as_ptr(),
            table.len(),
            code.as_ptr(),
            code.len(),
            out,
            len,
        )
    })
}
