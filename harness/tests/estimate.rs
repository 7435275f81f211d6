//! Module 7 through its C functions: the worked rows, the Rust's estimates bit for bit, a lane against its single code,
//! every refusal, and every byte of every buffer.

use harness::bytes::{self, of_floats, of_words, words, NAN};
use harness::draw::{FINITE, NANS, NOT_FINITE};
use harness::paper::estimate::{Asked, Query};
use harness::paper::{block, code};
use harness::rng::Rng;
use harness::{estimate, paper, rust, sys, trial};
use std::ptr::{null, null_mut};

const OUTER_DIMS: [u32; 5] = [0, 4_370, 65_535, 1 << 31, u32::MAX];
const BOTH: [Asked; 2] = [Asked::Rough, Asked::LowerBound];

fn try_code(query: Query, asked: Asked, bytes: &[u8], len: usize) -> u32 {
    trial::one(
        &format!("{asked:?} of {query:?}, code {bytes:02X?}, out of {len}"),
        len,
        |out| estimate::code(query, asked, bytes, out),
        |old| paper::estimate::code(query, asked, bytes, old),
    )
}

fn try_block(query: Query, asked: Asked, bytes: &[u8], len: usize) -> u32 {
    trial::one(
        &format!("{asked:?} of {query:?}, block of {}, out of {len}", bytes.len()),
        len,
        |out| estimate::block(query, asked, bytes, out),
        |old| paper::estimate::block(query, asked, bytes, old),
    )
}

fn of_code(query: Query, asked: Asked, bytes: &[u8]) -> Result<u32, u32> {
    let mut out = [0xEE; 4];
    match estimate::code(query, asked, bytes, &mut out) {
        0 => Ok(u32::from_le_bytes(out)),
        number => Err(number),
    }
}

fn of_block(query: Query, asked: Asked, bytes: &[u8]) -> Vec<u32> {
    let mut out = [0xEE; 128];
    assert_eq!(estimate::block(query, asked, bytes, &mut out), 0);
    words(&out)
}

/// A code with these factors and bits.
fn a_code(dims: u32, factors: [f32; 4], bit: impl Fn(usize) -> bool) -> Vec<u8> {
    code::code(dims, &of_floats(&factors), bit)
}

/// Query codes whose sum is Q and a code whose sum is S: the worked row of sums.
const CODES: [u8; 5] = [3, 0, 15, 8, 1];

fn worked(metric: u32) -> Query<'static> {
    Query { metric, dims: 5, dis_v_2: 4.0, b: 0.0, k: 1.0, codes: &CODES }
}

fn worked_code(factors: [f32; 4]) -> Vec<u8> {
    a_code(5, factors, |i| [true, false, true, true, false][i])
}

// ---- what is accepted

#[test]
fn the_worked_rows() {
    let single = worked_code([1.0, 0.0, -0.5, 0.0]);
    assert_eq!(of_code(worked(1), Asked::Rough, &single), Ok((-7.5f32).to_bits()));
    assert_eq!(of_code(worked(2), Asked::Rough, &single), Ok((-6.25f32).to_bits()));
    let block = block::packed(5, &single.repeat(32));
    assert_eq!(of_block(worked(1), Asked::Rough, &block), [(-7.5f32).to_bits(); 32]);
    assert_eq!(of_block(worked(2), Asked::Rough, &block), [(-6.25f32).to_bits(); 32]);
}

/// 1.9 is 0x3FF33333: with root 2 and factor_err 1 the bound is rough - 1.9*2, for dot rough - 1.9*1.
#[test]
fn the_width_of_a_bound() {
    let single = worked_code([1.0, 0.0, -0.5, 1.0]);
    let epsilon = f32::from_bits(0x3FF3_3333);
    assert_eq!(of_code(worked(1), Asked::LowerBound, &single), Ok((-7.5 - epsilon * 2.0).to_bits()));
    assert_eq!(of_code(worked(2), Asked::LowerBound, &single), Ok((-6.25 - epsilon).to_bits()));
}

/// Each operation rounds once, from the left.
#[test]
fn terms_are_added_from_the_left() {
    let big = f32::from_bits(0x4B80_0000); // 2^24: adding 1 to it changes nothing
    let query = Query { metric: 1, dims: 1, dis_v_2: 1.0, b: 1.0, k: 1.0, codes: &[1] };
    let rough = |factors| of_code(query, Asked::Rough, &a_code(1, factors, |_| true));
    assert_eq!(rough([big, 1.0, 1.0, 0.0]), Ok(big.to_bits()));
    assert_eq!(rough([1.0, 1.0, big, 0.0]), Ok((3.0 + big).to_bits()));
    assert_eq!(rough([1.0, big, -1.0, 0.0]), Ok((big + 1.0).to_bits()));
}

/// dis_v_2 of -0.0 is accepted, and its root is -0.0.
#[test]
fn minus_zero() {
    let query = Query { metric: 1, dims: 1, dis_v_2: -0.0, b: 0.0, k: 0.0, codes: &[0] };
    let single = a_code(1, [-0.0, -0.0, 1.0, 1.0], |_| false);
    let root: f32 = -0.0;
    let rough = ((-0.0f32 + -0.0) + 0.0 * -0.0) + ((0.0f32 - 0.0) * 1.0) * 0.0;
    assert_eq!(of_code(query, Asked::Rough, &single), Ok(rough.to_bits()));
    let bound = rough - f32::from_bits(0x3FF3_3333) * (1.0 * root);
    assert_eq!(of_code(query, Asked::LowerBound, &single), Ok(bound.to_bits()));
}

fn like_the_rust(query: Query, asked: Asked, singles: &[u8]) -> usize {
    let dims = query.dims;
    let block = block::packed(dims, singles);
    let lanes = of_block(query, asked, &block);
    let theirs = rust::estimate_block(query, asked, &block);
    let mut compared = 0;
    for (k, single) in singles.chunks(code::size_of(dims)).enumerate() {
        let ours = of_code(query, asked, single);
        // A lane has the estimate of its single code. Where the single call says 8, it has a NaN.
        assert_eq!(ours, if lanes[k] == NAN { Err(8) } else { Ok(lanes[k]) }, "lane {k}, {query:?}");
        let (factors, sum) = (paper::estimate::factors_of_code(single), paper::sums::of_code(query.codes, single));
        if rust::halves_agree(query, factors, sum, asked) {
            assert_eq!(lanes[k], bytes::worked_out(theirs[k]), "lane {k}, {query:?}");
            let code = rust::estimate_code(query, asked, single);
            assert_eq!(lanes[k], bytes::worked_out(code), "single code {k}, {query:?}");
            compared += 1;
        }
    }
    compared
}

/// Ordinary, extreme and damaged records, both metrics, both layouts.
#[test]
fn like_the_rust_on_records_of_every_kind() {
    let mut rng = Rng::new(1);
    let (mut compared, mut all) = (0, 0);
    for round in 0..400 {
        let dims = if round % 50 == 0 { 4_300 + rng.below(70) } else { 1 + rng.below(150) } as u32;
        let codes = rng.query(dims as usize);
        let kind = round % 3;
        let (dis_v_2, b, k) = match kind {
            0 => (rng.finite().abs(), rng.finite(), rng.finite()),
            _ => (rng.mild().abs(), rng.mild(), rng.mild()),
        };
        let mut singles = Vec::new();
        for _ in 0..32 {
            let factors = match kind {
                0 => rng.floats(4),
                1 => rng.finite_floats(4),
                _ => rng.mild_floats(4),
            };
            singles.extend(of_floats(&factors));
            singles.extend(rng.bytes(code::size_of(dims) - 16));
        }
        for metric in [1, 2] {
            for asked in BOTH {
                let query = Query { metric, dims, dis_v_2, b, k, codes: &codes };
                compared += like_the_rust(query, asked, &singles);
                all += 32;
            }
        }
    }
    assert!(compared > all / 2, "{compared} of {all} estimates were compared");
}

/// Every boundary number in every factor and in every number of the query record.
#[test]
fn boundaries_in_every_place() {
    let numbers: Vec<f32> = FINITE.iter().chain(&NOT_FINITE).copied().collect();
    for place in 0..4 {
        for x in &numbers {
            for (b, k) in FINITE.iter().zip(FINITE.iter().rev()).step_by(3) {
                let mut factors = [1.0, 0.5, -0.5, 0.25];
                factors[place] = *x;
                let singles: Vec<u8> = (0..32).flat_map(|lane| a_code(5, factors, |i| lane >> i & 1 == 1)).collect();
                for metric in [1, 2] {
                    let query = Query { metric, dims: 5, dis_v_2: b.abs(), b: *b, k: *k, codes: &CODES };
                    like_the_rust(query, Asked::LowerBound, &singles);
                    for lane in [0, 13, 31] {
                        let single = &singles[24 * lane..24 * lane + 24];
                        let want = paper::estimate::of_code(query, Asked::LowerBound, single);
                        let want = if want.is_nan() { Err(8) } else { Ok(want.to_bits()) };
                        assert_eq!(of_code(query, Asked::LowerBound, single), want);
                    }
                }
            }
        }
    }
}

// ---- what is refused

/// A query that everything but one thing is right with.
fn sound(metric: u32, codes: &[u8]) -> Query<'_> {
    Query { metric, dims: codes.len() as u32, dis_v_2: 1.0, b: 1.0, k: 1.0, codes }
}

#[test]
fn bad_dims_come_first() {
    for dims in OUTER_DIMS {
        for asked in BOTH {
            for len in [0, 4, 24, 128] {
                let query = Query { metric: 9, dims, dis_v_2: f32::NAN, b: f32::NAN, k: f32::NAN, codes: &[255; 3] };
                assert_eq!(try_code(query, asked, &vec![0xFF; len], len), 1);
                assert_eq!(try_block(query, asked, &vec![0xFF; len], len), 1);
            }
        }
    }
}

#[test]
fn then_a_bad_length() {
    for dims in [1u32, 5, 64, 65, 4_369] {
        let (n, single, packed) = (dims as usize, code::size_of(dims), block::size_of(dims));
        for asked in BOTH {
            let codes = vec![16; n + 1];
            let query = |n: usize| Query { metric: 9, dims, dis_v_2: f32::NAN, b: 0.0, k: 0.0, codes: &codes[..n] };
            for wrong in [0, n - 1, n + 1] {
                assert_eq!(try_code(query(wrong), asked, &vec![0xFF; single], 4), 3);
                assert_eq!(try_block(query(wrong), asked, &vec![0xFF; packed], 128), 3);
            }
            for wrong in [0, single - 8, single - 1, single + 1, single + 8] {
                assert_eq!(try_code(query(n), asked, &vec![0xFF; wrong], 4), 3);
            }
            for wrong in [0, packed - 16, packed - 1, packed + 1, packed + 16] {
                assert_eq!(try_block(query(n), asked, &vec![0xFF; wrong], 128), 3);
            }
            for wrong in [0, 3, 5, 124, 127, 129, 132] {
                assert_eq!(try_code(query(n), asked, &vec![0xFF; single], wrong), 3);
                assert_eq!(try_block(query(n), asked, &vec![0xFF; packed], wrong), 3);
            }
        }
    }
}

#[test]
fn then_what_is_missing() {
    let (single, packed) = (of_words(&[NAN; 6]), vec![0xFF; 528]);
    for asked in BOTH {
        for bad in NOT_FINITE {
            for place in 0..3 {
                for metric in [1, 2, 9] {
                    // A query code above 15, a metric that is none and a NaN estimate are judged later.
                    let mut query = Query { metric, ..sound(1, &[16]) };
                    match place {
                        0 => query.dis_v_2 = bad,
                        1 => query.b = bad,
                        _ => query.k = bad,
                    }
                    assert_eq!(try_code(query, asked, &single, 4), 4);
                    assert_eq!(try_block(query, asked, &packed, 128), 4);
                }
            }
        }
    }
}

#[test]
fn then_a_bad_value() {
    let (single, packed) = (of_words(&[NAN; 6]), vec![0xFF; 528]);
    for asked in BOTH {
        for dis_v_2 in [-1.0, -f32::MIN_POSITIVE, f32::MIN, f32::from_bits(0x8000_0001)] {
            for metric in [1, 2] {
                let query = Query { dis_v_2, ..sound(metric, &[0]) };
                assert_eq!(try_code(query, asked, &single, 4), 5);
                assert_eq!(try_block(query, asked, &packed, 128), 5);
            }
        }
        for metric in [0, 3, 4, 256, 257, 1 << 31, u32::MAX] {
            assert_eq!(try_code(sound(metric, &[0]), asked, &single, 4), 5);
            assert_eq!(try_block(sound(metric, &[0]), asked, &packed, 128), 5);
        }
        for dims in [1usize, 2, 9, 64, 65, 130] {
            for place in 0..dims {
                let mut codes = vec![15; dims];
                codes[place] = 16;
                let bytes = vec![0; code::size_of(dims as u32)];
                assert_eq!(try_code(sound(1, &codes), asked, &bytes, 4), 5);
                assert_eq!(try_block(sound(2, &codes), asked, &vec![0; block::size_of(dims as u32)], 128), 5);
            }
        }
    }
}

/// A number that is a NaN is refused for a single code, whichever number the call gives, and written in a block.
#[test]
fn then_an_estimate_that_is_a_nan() {
    for nan in NANS {
        for place in 0..4 {
            let mut factors = [1.0; 4];
            factors[place] = nan;
            let single = a_code(1, factors, |_| true);
            let block = block::packed(1, &single.repeat(32));
            for metric in [1, 2] {
                for asked in BOTH {
                    let unused = (metric == 2 && place == 0) || (asked == Asked::Rough && place == 3);
                    assert_eq!(try_code(sound(metric, &[1]), asked, &single, 4), if unused { 0 } else { 8 });
                    assert_eq!(try_block(sound(metric, &[1]), asked, &block, 128), 0);
                    let lane = of_block(sound(metric, &[1]), asked, &block)[7];
                    assert_eq!(lane == NAN, !unused, "a NaN is written as 0x7FC00000");
                }
            }
        }
    }
    // Two infinities that cancel: a NaN of our own making.
    let single = a_code(1, [f32::INFINITY, f32::NEG_INFINITY, 0.0, 0.0], |_| true);
    assert_eq!(try_code(sound(1, &[1]), Asked::Rough, &single, 4), 8);
    // The rough is a number and the bound is not, and the call that gives the rough does not mind.
    let single = a_code(1, [f32::INFINITY, 0.0, 0.0, f32::INFINITY], |_| true);
    assert_eq!(try_code(sound(1, &[1]), Asked::Rough, &single, 4), 0);
    assert_eq!(try_code(sound(1, &[1]), Asked::LowerBound, &single, 4), 8);
}

/// Infinite estimates are allowed.
#[test]
fn infinite_estimates() {
    for (dis_u_2, want) in [(f32::INFINITY, 0x7F80_0000), (f32::NEG_INFINITY, 0xFF80_0000)] {
        let single = a_code(1, [dis_u_2, 0.0, 0.0, 0.0], |_| true);
        assert_eq!(of_code(sound(1, &[1]), Asked::Rough, &single), Ok(want));
        assert_eq!(of_code(sound(1, &[1]), Asked::LowerBound, &single), Ok(want));
    }
}

#[test]
fn null_and_lengths_past_32_bits() {
    let list = [0u8; 528];
    let mut out = [0xEE; 128];
    let far = 1usize << 32;
    unsafe {
        let (l, o) = (list.as_ptr(), out.as_mut_ptr());
        for (call, size, len) in [
            (sys::lk_code_rough as unsafe extern "C" fn(_, _, _, _, _, _, _, _, _, _, _) -> _, 24, 4),
            (sys::lk_code_lower_bound, 24, 4),
            (sys::lk_block_rough, 528, 128),
            (sys::lk_block_lower_bounds, 528, 128),
        ] {
            assert_eq!(call(1, 1, 1.0, 1.0, 1.0, null(), 0, null(), 0, null_mut(), 0), 3);
            assert_eq!(call(1, 0, 1.0, 1.0, 1.0, null(), 0, null(), 0, null_mut(), 0), 1);
            assert_eq!(call(1, 1, 1.0, 1.0, 1.0, l, far + 1, l, size, o, len), 3);
            assert_eq!(call(1, 1, 1.0, 1.0, 1.0, l, 1, l, far + size, o, len), 3);
            assert_eq!(call(1, 1, 1.0, 1.0, 1.0, l, 1, l, size, o, far + len), 3);
        }
    }
    assert_eq!(out, [0xEE; 128]);
}
