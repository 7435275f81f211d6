//! Module 5 through its C functions: the Rust's blocks through the lane permutation, the round trip both ways, every
//! refusal, and every byte of every buffer.

use harness::paper::block::{bit_at, factor, place, size_of};
use harness::paper::code;
use harness::rng::Rng;
use harness::upstream::fast_scan::b4;
use harness::{block, paper, rust, sys, trial};
use std::ptr::{null, null_mut};

const OUTER_DIMS: [u32; 6] = [0, 4_370, 4_371, 65_535, 1 << 31, u32::MAX];

fn try_size(dims: u32, len: usize) -> u32 {
    trial::one(
        &format!("size of {dims} dims, out of {len}"),
        len,
        |out| block::size(dims, out),
        |old| paper::block::size(dims, old),
    )
}

fn try_pack(dims: u32, codes: &[u8], len: usize) -> u32 {
    trial::one(
        &format!("pack {dims} dims, codes of {}, block of {len}", codes.len()),
        len,
        |out| block::pack(dims, codes, out),
        |old| paper::block::pack(dims, codes, old),
    )
}

fn try_lane(dims: u32, bytes: &[u8], lane: u32, len: usize) -> u32 {
    trial::one(
        &format!("lane {lane} of {dims} dims, block of {}, code of {len}", bytes.len()),
        len,
        |out| block::lane(dims, bytes, lane, out),
        |old| paper::block::lane(dims, bytes, lane, old),
    )
}

fn size(dims: u32) -> u32 {
    let mut out = [0xEE; 4];
    assert_eq!(block::size(dims, &mut out), 0);
    u32::from_le_bytes(out)
}

fn pack(dims: u32, codes: &[u8]) -> Vec<u8> {
    let mut out = vec![0xEE; size_of(dims)];
    assert_eq!(block::pack(dims, codes, &mut out), 0);
    out
}

fn lane(dims: u32, bytes: &[u8], lane: u32) -> Vec<u8> {
    let mut out = vec![0xEE; code::size_of(dims)];
    assert_eq!(block::lane(dims, bytes, lane, &mut out), 0);
    out
}

/// The same code with its pad bits 0.
fn no_pad(dims: u32, single: &[u8]) -> Vec<u8> {
    code::code(dims, &single[..16], |i| code::bit_at(single, i))
}

// ---- what is accepted

#[test]
fn sizes() {
    assert_eq!([1, 4, 5, 65, 4_369].map(size), [528, 528, 544, 784, 18_000]);
    for dims in 1..=4_369 {
        assert_eq!(try_size(dims, 4), 0);
        assert_eq!(size(dims) as usize, 512 + 16 * (dims as usize).div_ceil(4));
    }
}

/// Every dims from 1 to 300 and around 4,369: the Rust's `fscan_encode` and `pack` through the lane permutation.
#[test]
fn like_the_rust_at_every_dims() {
    let mut rng = Rng::new(1);
    for dims in (1..=300).chain([1_023, 1_024, 1_025, 4_366, 4_367, 4_368, 4_369]) {
        let codes = rng.bytes(32 * code::size_of(dims));
        assert_eq!(try_pack(dims, &codes, size_of(dims)), 0);
        let block = pack(dims, &codes);
        assert_eq!(block, rust::block_pack(dims, &codes), "{dims} dims");
        let nibbles: [Vec<u8>; 32] = std::array::from_fn(|lane| {
            let single = &codes[lane * code::size_of(dims)..];
            let bit = |i: u32| u8::from(i < dims && code::bit_at(single, i as usize));
            let nibble = |g: u32| bit(4 * g) + 2 * bit(4 * g + 1) + 4 * bit(4 * g + 2) + 8 * bit(4 * g + 3);
            (0..dims.div_ceil(4)).map(nibble).collect()
        });
        let theirs: Vec<u8> = b4::pack(dims.div_ceil(4), nibbles).collect();
        assert_eq!(rust::nibbles_theirs(&block[512..]), theirs, "pack of {dims} dims");
    }
}

/// Packing 32 codes and reading them back gives them again, pad bits zero; and the other way round.
#[test]
fn the_round_trip_both_ways() {
    let mut rng = Rng::new(2);
    for dims in (1..=140).chain([255, 256, 257, 4_368, 4_369]) {
        let codes = rng.bytes(32 * code::size_of(dims));
        let block = pack(dims, &codes);
        for (k, single) in codes.chunks(code::size_of(dims)).enumerate() {
            assert_eq!(lane(dims, &block, k as u32), no_pad(dims, single), "lane {k} of {dims} dims");
        }
        let other = rng.bytes(size_of(dims));
        for k in 0..32 {
            assert_eq!(try_lane(dims, &other, k, code::size_of(dims)), 0);
        }
        let lanes: Vec<u8> = (0..32).flat_map(|k| lane(dims, &other, k)).collect();
        let again = pack(dims, &lanes);
        assert_eq!(again[..512], other[..512]);
        for k in 0..32 {
            for i in 0..dims.next_multiple_of(4) as usize {
                assert_eq!(bit_at(&again, k, i), (i as u32) < dims && bit_at(&other, k, i));
            }
        }
    }
}

/// One bit of one lane, and where it stands.
#[test]
fn where_a_bit_stands() {
    for dims in [1u32, 4, 5, 9] {
        for k in 0..32usize {
            for i in 0..dims as usize {
                let mut codes = vec![0; 32 * code::size_of(dims)];
                codes[k * code::size_of(dims) + 16 + i / 8] = 1 << (i % 8);
                let block = pack(dims, &codes);
                let at = 512 + 16 * (i / 4) + k % 16;
                let byte = (if k < 16 { 0x01 } else { 0x10 }) << (i % 4);
                for (j, got) in block.iter().enumerate() {
                    assert_eq!(*got, if j == at { byte } else { 0 }, "lane {k}, dimension {i}, byte {j}");
                }
                assert_eq!(place(k, i), (at, byte.trailing_zeros()));
            }
        }
    }
}

#[test]
fn factors_stand_in_plain_lane_order() {
    let mut codes = Vec::new();
    for k in 0..32u32 {
        for f in 0..4 {
            codes.extend((0x7FA0_0000 + 256 * k + f).to_le_bytes());
        }
        codes.extend([0; 8]);
    }
    let block = pack(1, &codes);
    for k in 0..32 {
        for f in 0..4 {
            let want = (0x7FA0_0000 + 256 * k as u32 + f as u32).to_le_bytes();
            assert_eq!(block[factor(f, k)], want, "factor {f} of lane {k}");
        }
    }
}

// ---- what is refused

#[test]
fn bad_dims_come_first() {
    for dims in OUTER_DIMS {
        for len in [0, 4, 24, 528, 768] {
            assert_eq!(try_size(dims, len), 1);
            assert_eq!(try_pack(dims, &vec![0xFF; len], len), 1);
            assert_eq!(try_lane(dims, &vec![0xFF; len], 32, len), 1);
        }
    }
}

/// A short buffer of codes is refused, not filled with zeros.
#[test]
fn then_a_bad_length() {
    for dims in [1u32, 4, 5, 64, 65, 300, 4_369] {
        let (single, packed) = (code::size_of(dims), size_of(dims));
        for len in [0, 3, 5, 8] {
            assert_eq!(try_size(dims, len), 3);
        }
        for wrong in [0, single, 31 * single, 32 * single - 1, 32 * single + 1, 33 * single] {
            assert_eq!(try_pack(dims, &vec![0xFF; wrong], packed), 3);
        }
        for wrong in [0, 512, packed - 16, packed - 1, packed + 1, packed + 16] {
            assert_eq!(try_pack(dims, &vec![0xFF; 32 * single], wrong), 3);
            for k in [0, 31, 32, u32::MAX] {
                assert_eq!(try_lane(dims, &vec![0xFF; wrong], k, single), 3);
            }
        }
        for wrong in [0, 16, single - 1, single + 1, single + 8] {
            for k in [0, 31, 32, u32::MAX] {
                assert_eq!(try_lane(dims, &vec![0xFF; packed], k, wrong), 3);
            }
        }
        assert_eq!(try_pack(dims, &vec![0xFF; 32 * single], packed), 0);
    }
}

#[test]
fn then_a_lane_above_31() {
    for dims in [1u32, 65, 4_369] {
        for k in 0..32 {
            assert_eq!(try_lane(dims, &vec![0xFF; size_of(dims)], k, code::size_of(dims)), 0);
        }
        for k in [32, 33, 47, 63, 64, 256, 1 << 31, u32::MAX] {
            assert_eq!(try_lane(dims, &vec![0xFF; size_of(dims)], k, code::size_of(dims)), 6);
        }
    }
}

#[test]
fn null_and_lengths_past_32_bits() {
    let list = [0u8; 768];
    let mut out = [0xEE; 528];
    let far = 1usize << 32;
    unsafe {
        let (l, o) = (list.as_ptr(), out.as_mut_ptr());
        assert_eq!(sys::lk_block_size(1, null_mut(), 0), 3);
        assert_eq!(sys::lk_block_pack(1, null(), 0, null_mut(), 0), 3);
        assert_eq!(sys::lk_block_lane(1, null(), 0, 0, null_mut(), 0), 3);
        assert_eq!(sys::lk_block_size(1, o, far + 4), 3);
        assert_eq!(sys::lk_block_pack(1, l, far + 768, o, 528), 3);
        assert_eq!(sys::lk_block_pack(1, l, 768, o, far + 528), 3);
        assert_eq!(sys::lk_block_lane(1, l, far + 528, 0, o, 24), 3);
        assert_eq!(sys::lk_block_lane(1, l, 528, 0, o, far + 24), 3);
    }
    assert_eq!(out, [0xEE; 528]);
}
