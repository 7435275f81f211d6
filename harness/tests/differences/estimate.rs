//! Module 7.

use harness::bytes::{of_floats, words, NAN};
use harness::estimate;
use harness::paper::block;
use harness::paper::code::{self, size_of};
use harness::paper::estimate::{Asked, Query};
use harness::rust;
use harness::upstream::base::VectL2;
use harness::upstream::rabitq::{self, OperatorRabitqQuantization};

fn ours(query: Query, asked: Asked, bytes: &[u8]) -> Result<f32, u32> {
    let mut out = [0xEE; 4];
    match estimate::code(query, asked, bytes, &mut out) {
        0 => Ok(f32::from_le_bytes(out)),
        number => Err(number),
    }
}

fn a_code(factors: [f32; 4]) -> Vec<u8> {
    code::code(1, &of_floats(&factors), |_| true)
}

/// Dims above 4,369: `process` cuts the sum to 16 bits. 4,370 codes of 15 are 65,550 and count as 14.
#[test]
fn more_than_4369_dims() {
    let codes = [15; 4_370];
    let mut single = of_floats(&[0.0, 0.0, 1.0, 0.0]);
    single.resize(size_of(4_370), 0xFF);
    let aligned = rust::Aligned::new(&single);
    let lut = (0.0, 0.0, 1.0, 65_550.0, rabitq::binarize(&codes));
    let theirs = VectL2::process(&lut, rabitq::parse_code(aligned.as_ref())).to_f32();
    assert_eq!(theirs, 2.0 * 14.0 - 65_550.0);
    let query = Query { metric: 1, dims: 4_370, dis_v_2: 0.0, b: 0.0, k: 1.0, codes: &codes };
    assert_eq!(ours(query, Asked::Rough, &single), Err(1));
}

/// A NaN estimate is handed out there.
#[test]
fn an_estimate_that_is_a_nan() {
    let query = Query { metric: 1, dims: 1, dis_v_2: 0.0, b: 0.0, k: 0.0, codes: &[0] };
    let single = a_code([f32::NAN, 0.0, 0.0, 0.0]);
    assert!(rust::estimate_code(query, Asked::Rough, &single).is_nan());
    assert_eq!(ours(query, Asked::Rough, &single), Err(8));
    assert!(rust::estimate_code(query, Asked::LowerBound, &single).is_nan());
    assert_eq!(ours(query, Asked::LowerBound, &single), Err(8));
}

/// A NaN of a lane is handed out on both sides. It has one pattern here, and there the bits of the factor or the CPU.
#[test]
fn a_lane_that_is_a_nan() {
    let query = Query { metric: 1, dims: 1, dis_v_2: 0.0, b: 0.0, k: 0.0, codes: &[0] };
    let single = a_code([f32::from_bits(0x7FC0_0001), 0.0, 0.0, 0.0]);
    let packed = block::packed(1, &single.repeat(32));
    let theirs = rust::estimate_block(query, Asked::Rough, &packed);
    assert!(theirs.iter().all(|lane| lane.is_nan() && lane.to_bits() != NAN));
    let mut out = [0xEE; 128];
    assert_eq!(estimate::block(query, Asked::Rough, &packed, &mut out), 0);
    assert_eq!(words(&out), [NAN; 32]);
}

/// An infinity or a NaN in the query record is worked with there, and here it is missing.
#[test]
fn a_query_record_that_is_not_finite() {
    let single = a_code([0.0; 4]);
    let sound = Query { metric: 1, dims: 1, dis_v_2: 0.0, b: 0.0, k: 0.0, codes: &[0] };
    let far = Query { dis_v_2: f32::INFINITY, ..sound };
    assert_eq!(rust::estimate_code(far, Asked::Rough, &single), f32::INFINITY);
    assert_eq!(ours(far, Asked::Rough, &single), Err(4));
    for bad in [f32::INFINITY, f32::NAN] {
        for query in [Query { b: bad, ..sound }, Query { k: bad, ..sound }] {
            assert!(rust::estimate_code(query, Asked::Rough, &single).is_nan());
            assert_eq!(ours(query, Asked::Rough, &single), Err(4));
        }
    }
}

/// dis_v_2 below 0 has no root: the Rust's bound is a NaN, and here it is refused.
#[test]
fn dis_v_2_below_0() {
    let query = Query { metric: 1, dims: 1, dis_v_2: -1.0, b: 0.0, k: 0.0, codes: &[0] };
    let single = a_code([0.0; 4]);
    assert!(rust::estimate_code(query, Asked::LowerBound, &single).is_nan());
    assert_eq!(ours(query, Asked::LowerBound, &single), Err(5));
}

/// Dot: the Rust takes its halves first and the paper takes them last. With b 2^127 and factor_ppc 2 the product is
/// infinite here and 2^127 there; with b the least subnormal and factor_ppc 2 the half is 2^-149 here and 0 there.
#[test]
fn halves() {
    let big = f32::from_bits(0x7F00_0000);
    let least = f32::from_bits(1);
    let query = |b| Query { metric: 2, dims: 1, dis_v_2: 0.0, b, k: 0.0, codes: &[0] };
    let single = a_code([0.0, 2.0, 0.0, 0.0]);
    assert_eq!(rust::estimate_code(query(big), Asked::Rough, &single), big);
    assert_eq!(ours(query(big), Asked::Rough, &single), Ok(f32::INFINITY));
    assert_eq!(rust::estimate_code(query(least), Asked::Rough, &single), 0.0);
    assert_eq!(ours(query(least), Asked::Rough, &single), Ok(least));
}
