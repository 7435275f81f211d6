//! Module 6 through its C functions: the worked rows, every form of the Rust's sums, every refusal, and every byte of
//! every buffer.

use harness::bytes::words;
use harness::paper::{block, code};
use harness::rng::Rng;
use harness::upstream::detect::{levels, with};
use harness::upstream::rabitq::binarize;
use harness::{paper, rust, sums, sys, trial};
use std::ptr::{null, null_mut};

const OUTER_DIMS: [u32; 6] = [0, 4_370, 4_371, 65_535, 1 << 31, u32::MAX];

fn try_query(dims: u32, query: &[u8], len: usize) -> u32 {
    trial::one(
        &format!("query sum of {dims} dims, query of {}, out of {len}", query.len()),
        len,
        |out| sums::query(dims, query, out),
        |old| paper::sums::query(dims, query, old),
    )
}

fn try_code(dims: u32, query: &[u8], bytes: &[u8], len: usize) -> u32 {
    trial::one(
        &format!("code sum of {dims} dims, query of {}, code of {}, out of {len}", query.len(), bytes.len()),
        len,
        |out| sums::code(dims, query, bytes, out),
        |old| paper::sums::code(dims, query, bytes, old),
    )
}

fn try_block(dims: u32, query: &[u8], bytes: &[u8], len: usize) -> u32 {
    trial::one(
        &format!("block sums of {dims} dims, query of {}, block of {}, out of {len}", query.len(), bytes.len()),
        len,
        |out| sums::block(dims, query, bytes, out),
        |old| paper::sums::block(dims, query, bytes, old),
    )
}

fn query_sum(query: &[u8]) -> u32 {
    let mut out = [0xEE; 4];
    assert_eq!(sums::query(query.len() as u32, query, &mut out), 0);
    u32::from_le_bytes(out)
}

fn code_sum(query: &[u8], bytes: &[u8]) -> u32 {
    let mut out = [0xEE; 4];
    assert_eq!(sums::code(query.len() as u32, query, bytes, &mut out), 0);
    u32::from_le_bytes(out)
}

fn block_sums(query: &[u8], bytes: &[u8]) -> Vec<u32> {
    let mut out = [0xEE; 128];
    assert_eq!(sums::block(query.len() as u32, query, bytes, &mut out), 0);
    words(&out)
}

// ---- what is accepted

#[test]
fn the_worked_row() {
    let query = [3, 0, 15, 8, 1];
    let single = code::code(5, &[0; 16], |i| [true, false, true, true, false][i]);
    assert_eq!(single[16], 13);
    assert_eq!(binarize(&query), (vec![21], vec![5], vec![4], vec![12]));
    assert_eq!(code_sum(&query, &single), 26);
    assert_eq!(query_sum(&query), 27);
    let block = paper::block::packed(5, &single.repeat(32));
    assert_eq!(block_sums(&query, &block), [26; 32]);
}

#[test]
fn the_greatest_sum() {
    let query = [15; 4_369];
    assert_eq!(query_sum(&query), 65_535);
    assert_eq!(code_sum(&query, &vec![0xFF; code::size_of(4_369)]), 65_535);
    assert_eq!(block_sums(&query, &vec![0xFF; block::size_of(4_369)]), [65_535; 32]);
}

/// Planes, table and every SIMD form of the Rust against the calls, at every dims from 1 to 300 and around 4,369.
#[test]
fn like_every_form_of_the_rust() {
    let mut rng = Rng::new(1);
    for dims in (1..=300u32).chain([1_023, 1_024, 1_025, 4_366, 4_367, 4_368, 4_369]) {
        for full in [false, true] {
            let query = if full { vec![15; dims as usize] } else { rng.query(dims as usize) };
            let single = rng.bytes(code::size_of(dims));
            let block = rng.bytes(block::size_of(dims));
            let sum = code_sum(&query, &single);
            let lanes = block_sums(&query, &block);
            assert_eq!(query_sum(&query), rust::query_sum(&query));
            for level in levels() {
                assert_eq!(sum, with(level, || rust::code_sum(&query, &single)), "{dims} dims, {level:?}");
                assert_eq!(lanes, with(level, || rust::block_sums(&query, &block)), "{dims} dims, {level:?}");
            }
            assert_eq!(sum, paper::sums::of_code(&query, &single), "{dims} dims");
            for (k, lane) in lanes.iter().enumerate() {
                assert_eq!(*lane, paper::sums::of_lane(&query, &block, k), "lane {k} of {dims} dims");
                assert_eq!(*lane, code_sum(&query, &paper::block::single(dims, &block, k)), "lane {k}, single");
            }
        }
    }
}

/// Bits after dims are ignored, whatever they are.
#[test]
fn pad_bits_do_not_count() {
    for dims in 1..=130u32 {
        let query = vec![15; dims as usize];
        assert_eq!(code_sum(&query, &vec![0xFF; code::size_of(dims)]), 15 * dims);
        assert_eq!(block_sums(&query, &vec![0xFF; block::size_of(dims)]), [15 * dims; 32]);
    }
}

/// One code at one place, and one bit.
#[test]
fn each_place_counts_its_own_code() {
    for dims in [1usize, 5, 64, 65, 131] {
        for i in 0..dims {
            let mut query = vec![0; dims];
            query[i] = 11;
            let single = code::code(dims as u32, &[0; 16], |j| j == i);
            assert_eq!(code_sum(&query, &single), 11);
            let others = code::code(dims as u32, &[0; 16], |j| j != i);
            assert_eq!(code_sum(&query, &others), 0);
            for lane in [0, 1, 15, 16, 31] {
                let mut block = vec![0; block::size_of(dims as u32)];
                let (byte, place) = block::place(lane, i);
                block[byte] = 1 << place;
                let mut want = vec![0; 32];
                want[lane] = 11;
                assert_eq!(block_sums(&query, &block), want);
            }
        }
    }
}

// ---- what is refused

#[test]
fn bad_dims_come_first() {
    for dims in OUTER_DIMS {
        for len in [0, 4, 5, 24, 128] {
            assert_eq!(try_query(dims, &vec![0xFF; len], len), 1);
            assert_eq!(try_code(dims, &vec![0xFF; len], &vec![0; len], len), 1);
            assert_eq!(try_block(dims, &vec![0xFF; len], &vec![0; len], len), 1);
        }
    }
}

#[test]
fn then_a_bad_length() {
    for dims in [1u32, 3, 64, 65, 300, 4_369] {
        let (n, single, packed) = (dims as usize, code::size_of(dims), block::size_of(dims));
        // Query codes above 15 are judged later.
        for fill in [0, 16] {
            for wrong in [0, n - 1, n + 1] {
                assert_eq!(try_query(dims, &vec![fill; wrong], 4), 3);
                assert_eq!(try_code(dims, &vec![fill; wrong], &vec![0; single], 4), 3);
                assert_eq!(try_block(dims, &vec![fill; wrong], &vec![0; packed], 128), 3);
            }
            for wrong in [0, single - 8, single - 1, single + 1, single + 8] {
                assert_eq!(try_code(dims, &vec![fill; n], &vec![0; wrong], 4), 3);
            }
            for wrong in [0, packed - 16, packed - 1, packed + 1, packed + 16] {
                assert_eq!(try_block(dims, &vec![fill; n], &vec![0; wrong], 128), 3);
            }
            for wrong in [0, 3, 5, 127, 129] {
                assert_eq!(try_query(dims, &vec![fill; n], wrong), 3);
                assert_eq!(try_code(dims, &vec![fill; n], &vec![0; single], wrong), 3);
                assert_eq!(try_block(dims, &vec![fill; n], &vec![0; packed], wrong), 3);
            }
        }
    }
}

#[test]
fn then_a_query_code_above_15() {
    for dims in [1usize, 2, 7, 16, 33, 64, 65, 130] {
        let (single, packed) = (vec![0; code::size_of(dims as u32)], vec![0; block::size_of(dims as u32)]);
        for place in 0..dims {
            for above in [16, 17, 32, 128, 255] {
                let mut query = vec![15; dims];
                query[place] = above;
                assert_eq!(try_query(dims as u32, &query, 4), 5);
                assert_eq!(try_code(dims as u32, &query, &single, 4), 5, "at a bit that is 0 too");
                assert_eq!(try_block(dims as u32, &query, &packed, 128), 5);
            }
        }
        assert_eq!(try_query(dims as u32, &vec![15; dims], 4), 0);
    }
}

#[test]
fn null_and_lengths_past_32_bits() {
    let list = [0u8; 528];
    let mut out = [0xEE; 128];
    let far = 1usize << 32;
    unsafe {
        let (l, o) = (list.as_ptr(), out.as_mut_ptr());
        assert_eq!(sys::lk_query_sum(1, null(), 0, null_mut(), 0), 3);
        assert_eq!(sys::lk_code_sum(1, null(), 0, null(), 0, null_mut(), 0), 3);
        assert_eq!(sys::lk_block_sums(1, null(), 0, null(), 0, null_mut(), 0), 3);
        assert_eq!(sys::lk_query_sum(1, l, far + 1, o, 4), 3);
        assert_eq!(sys::lk_query_sum(1, l, 1, o, far + 4), 3);
        assert_eq!(sys::lk_code_sum(1, l, 1, l, far + 24, o, 4), 3);
        assert_eq!(sys::lk_code_sum(1, l, far + 1, l, 24, o, 4), 3);
        assert_eq!(sys::lk_code_sum(1, l, 1, l, 24, o, far + 4), 3);
        assert_eq!(sys::lk_block_sums(1, l, far + 1, l, 528, o, 128), 3);
        assert_eq!(sys::lk_block_sums(1, l, 1, l, far + 528, o, 128), 3);
        assert_eq!(sys::lk_block_sums(1, l, 1, l, 528, o, far + 128), 3);
    }
    assert_eq!(out, [0xEE; 128]);
}
