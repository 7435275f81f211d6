//! Each function refuses with the number that its input earns, and leaves what it was lent as it was.

mod common;

use common::refused;
use lintelkite::Refusal::*;
use lintelkite::{digits, Width};

const HUGE: usize = 1 << 40;

#[test]
fn digits() {
    refused(digits::size(Width::One, 0), BadDims);
    refused(digits::size(Width::Eight, 65_536), BadDims);
    refused(digits::size(Width::Eight, HUGE + 1), BadDims);
    refused(digits::pack(Width::Two, &[]), BadDims);
    refused(digits::pack(Width::Two, &[0; 65_536]), BadDims);
    refused(digits::pack(Width::Two, &[3, 4]), BadValue);
    let mut packed = [0xEE; 2];
    refused(digits::pack_into(Width::Two, &[1; 4], &mut packed), BadLength);
    refused(digits::pack_into(Width::Two, &[1, 1, 1, 1, 4], &mut packed), BadValue);
    assert_eq!(packed, [0xEE; 2]);
    refused(digits::read(Width::Two, 5, &[0; 3], 0), BadLength);
    refused(digits::read(Width::Two, 5, &[0; 2], 5), OutOfRange);
    refused(digits::read(Width::Two, 5, &[0; 2], HUGE), OutOfRange);
    refused(digits::read(Width::Two, HUGE + 5, &[0; 2], 0), BadDims);
}
