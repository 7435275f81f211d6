//! Module 1.

use harness::digits;
use harness::upstream::utils::merge_8;

/// A code above the top spills into its neighbour there: codes 2, 0 of one bit are those of 0, 1. Here it is refused.
#[test]
fn a_code_above_the_top() {
    assert_eq!(merge_8([2, 0, 0, 0, 0, 0, 0, 0]), merge_8([0, 1, 0, 0, 0, 0, 0, 0]));
    let mut packed = [0xEE];
    assert_eq!(digits::pack(2, 1, &[2, 0], &mut packed), 5);
    assert_eq!(packed, [0xEE]);
}
