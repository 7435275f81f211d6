//! Module 3: the square root.

use crate::bytes::float;
use crate::{sys, Refusal};

/// The square root, correctly rounded, ties to even. The root of -0.0 is -0.0, of infinity itself.
///
/// # Errors
/// [`Refusal::Missing`]: the number is a NaN or below 0.
///
/// ```
/// use lintelkite::{root, Refusal};
///
/// assert_eq!(root(2.0)?.to_bits(), 0x3FB5_04F3);
/// assert_eq!(root(-1.0), Err(Refusal::Missing));
/// # Ok::<(), lintelkite::Refusal>(())
/// ```
pub fn root(x: f32) -> Result<f32, Refusal> {
    float(|out, len| unsafe { sys::lk_root(x, out, len) })
}
