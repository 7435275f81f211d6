//! Module 3. The f32 that is nearest to the root, worked out in whole numbers. Zeros and +infinity are roots of
//! themselves. A NaN has none, and no number below 0.

use super::{after, first};
use crate::refusal::*;

/// The greatest whole number whose square is at most `n`.
fn whole_root(n: u64) -> u64 {
    let (mut low, mut high) = (0, 1 << 32);
    while high - low > 1 {
        let middle = (low + high) / 2;
        if middle * middle <= n {
            low = middle;
        } else {
            high = middle;
        }
    }
    low
}

/// The root of a number that is not below 0, and no NaN.
pub fn root(x: f32) -> f32 {
    if x == 0.0 || x == f32::INFINITY {
        return x;
    }
    // x is m * 2^e. With e even and m of 47 or 48 bits, the root of m has 24 bits before the point.
    let bits = x.to_bits();
    let (mut m, mut e) = match bits >> 23 {
        0 => (u64::from(bits), -149),
        exponent => (u64::from(bits & 0x7F_FFFF) + 0x80_0000, exponent as i32 - 150),
    };
    if e % 2 != 0 {
        m *= 2;
        e -= 1;
    }
    while m < 1 << 46 {
        m *= 4;
        e -= 2;
    }
    let whole = whole_root(m);
    // The root is above whole + 1/2 exactly when m is above whole * whole + whole + 1/4. No whole m is equal to that.
    let nearest = if m > whole * whole + whole { whole + 1 } else { whole };
    (nearest as f64 * 2f64.powi(e / 2)) as f32
}

pub fn call(x: f32, out: &[u8]) -> (u32, Vec<u8>) {
    let number = first(&[(BAD_LENGTH, &|| out.len() != 4), (MISSING, &|| x.is_nan() || x < 0.0)]);
    after(number, out, || root(x).to_bits().to_le_bytes().to_vec())
}
