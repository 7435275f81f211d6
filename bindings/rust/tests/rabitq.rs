//! Each function refuses with the number that its input earns, and leaves what it was lent as it was.

mod common;

use common::refused;
use lintelkite::estimate::{block_lower_bounds, block_rough, code_lower_bound, code_rough};
use lintelkite::Refusal::*;
use lintelkite::{block, code, sums, Factors, Metric, Query};

const HUGE: usize = 1 << 40;

#[test]
fn codes() {
    refused(code::size(0), BadDims);
    refused(code::size(4370), BadDims);
    refused(code::encode(Factors::default(), &[]), BadDims);
    refused(code::encode(Factors::default(), &[1.0, f32::INFINITY]), Missing);
    let mut lent = [0xEE; 32];
    refused(code::encode_into(Factors::default(), &[f32::NAN; 64], &mut lent), BadLength);
    assert_eq!(lent, [0xEE; 32]);
    refused(code::bit(64, &[0; 23], 0), BadLength);
    refused(code::bit(63, &[0; 24], 63), OutOfRange);
    refused(code::bit(63, &[0; 24], HUGE), OutOfRange);
}

#[test]
fn factors_keep_their_bits() {
    let bits = [0x7FC0_0001, 0x7F80_0001, 0xFFFF_FFFF, 0x8000_0000].map(f32::from_bits);
    let factors = Factors { dis_u_2: bits[0], factor_ppc: bits[1], factor_ip: bits[2], factor_err: bits[3] };
    let code = code::encode(factors, &[-1.0]).unwrap();
    assert_eq!(code[..16], factors.to_bytes());
    let read = Factors::of_code(&code).unwrap();
    assert_eq!(read.to_bytes(), factors.to_bytes());
}

#[test]
fn blocks() {
    refused(block::size(4370), BadDims);
    refused(block::pack(0, &[]), BadDims);
    refused(block::pack(1, &[0; 31 * 24]), BadLength);
    refused(block::lane(1, &[0; 529], 0), BadLength);
    refused(block::lane(1, &[0; 528], 32), OutOfRange);
    let mut lent = [0xEE; 527];
    refused(block::pack_into(1, &[0; 32 * 24], &mut lent), BadLength);
    assert_eq!(lent, [0xEE; 527]);
}

#[test]
fn sums_of_queries() {
    refused(sums::query_sum(&[]), BadDims);
    refused(sums::query_sum(&[0; 4370]), BadDims);
    refused(sums::query_sum(&[15, 16]), BadValue);
    refused(sums::code_sum(&[15, 15], &[0; 23]), BadLength);
    refused(sums::code_sum(&[15, 16], &[0; 24]), BadValue);
    refused(sums::block_sums(&[15, 15], &[0; 527]), BadLength);
    refused(sums::block_sums(&[15, 16], &[0; 528]), BadValue);
    assert_eq!(sums::query_sum(&[15; 4369]), Ok(65_535));
}

#[test]
fn estimates() {
    let good = Query { dis_v_2: 4.0, b: 0.0, k: 1.0, codes: &[1, 15] };
    for (query, why) in [
        (Query { codes: &[], ..good }, BadDims),
        (Query { codes: &[0; 65], ..good }, BadLength),
        (Query { dis_v_2: f32::NEG_INFINITY, ..good }, Missing),
        (Query { b: f32::NAN, ..good }, Missing),
        (Query { k: f32::INFINITY, ..good }, Missing),
        (Query { dis_v_2: -1.0, ..good }, BadValue),
        (Query { codes: &[1, 16], ..good }, BadValue),
    ] {
        for metric in [Metric::L2, Metric::Dot] {
            refused(code_rough(metric, &query, &[0; 24]), why);
            refused(code_lower_bound(metric, &query, &[0; 24]), why);
            refused(block_rough(metric, &query, &[0; 528]), why);
            refused(block_lower_bounds(metric, &query, &[0; 528]), why);
        }
    }
    let no_bound = code::encode(Factors { factor_err: f32::NAN, ..Factors::default() }, &[1.0, 1.0]).unwrap();
    assert!(code_rough(Metric::L2, &good, &no_bound).is_ok());
    refused(code_lower_bound(Metric::L2, &good, &no_bound), NoEstimate);
}
