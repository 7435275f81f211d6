//! Each function refuses with the number that its input earns, and leaves what it was lent as it was.

mod common;

use common::refused;
use lintelkite::root;
use lintelkite::Refusal::*;

#[test]
fn root_of_what_has_none() {
    for x in [-1.0, f32::NEG_INFINITY, f32::NAN, -f32::from_bits(1)] {
        refused(root(x), Missing);
    }
    assert_eq!(root(-0.0).map(f32::to_bits), Ok(0x8000_0000));
    assert_eq!(root(f32::INFINITY), Ok(f32::INFINITY));
}
