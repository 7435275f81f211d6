//! Module 6.

use harness::paper::{block, code};
use harness::{rust, sums};

/// A query code above 15: the Rust's planes drop its higher bits and its table keeps them, so its two sums differ. Here
/// it is refused.
#[test]
fn a_query_code_of_16() {
    assert_eq!(rust::code_sum(&[16], &[0xFF; 24]), 0);
    assert_eq!(rust::block_sums(&[16], &[0xFF; 528]), [16; 32]);
    let mut out = [0xEE; 128];
    assert_eq!(sums::code(1, &[16], &[0xFF; 24], &mut out[..4]), 5);
    assert_eq!(sums::block(1, &[16], &[0xFF; 528], &mut out), 5);
}

/// Above 4,369 dims the Rust's block sums are cut to 16 bits: 4,370 codes of 15 are 65,550 and give 14. Here such dims
/// are refused.
#[test]
fn more_than_4369_dims() {
    let query = [15; 4_370];
    let (single, packed) = (vec![0xFF; code::size_of(4_370)], vec![0xFF; block::size_of(4_370)]);
    assert_eq!(rust::code_sum(&query, &single), 65_550, "cut by its caller, `process`");
    assert_eq!(rust::block_sums(&query, &packed), [14; 32]);
    let mut out = [0xEE; 128];
    assert_eq!(sums::code(4_370, &query, &single, &mut out[..4]), 1);
    assert_eq!(sums::block(4_370, &query, &packed, &mut out), 1);
}
