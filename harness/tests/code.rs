//! Module 4 through its C functions: the Rust's codes, every refusal, and every byte of every buffer.

use harness::bytes::{of_floats, of_words};
use harness::draw::{FINITE, NOT_FINITE};
use harness::paper::code::size_of;
use harness::rng::Rng;
use harness::{code, paper, rust, sys, trial};
use std::ptr::{null, null_mut};

const OUTER_DIMS: [u32; 6] = [0, 4_370, 4_371, 65_535, 1 << 31, u32::MAX];

fn try_size(dims: u32, len: usize) -> u32 {
    trial::one(
        &format!("size of {dims} dims, out of {len}"),
        len,
        |out| code::size(dims, out),
        |old| paper::code::size(dims, old),
    )
}

fn try_encode(dims: u32, factors: &[u8], vector: &[u8], len: usize) -> u32 {
    trial::one(
        &format!("encode {dims} dims, factors {factors:02X?}, vector of {}, code of {len}", vector.len()),
        len,
        |out| code::encode(dims, factors, vector, out),
        |old| paper::code::encode(dims, factors, vector, old),
    )
}

fn try_bit(dims: u32, bytes: &[u8], index: u32, len: usize) -> u32 {
    trial::one(
        &format!("bit {index} of {dims} dims, code of {}, out of {len}", bytes.len()),
        len,
        |out| code::bit(dims, bytes, index, out),
        |old| paper::code::bit(dims, bytes, index, old),
    )
}

fn size(dims: u32) -> u32 {
    let mut out = [0xEE; 4];
    assert_eq!(code::size(dims, &mut out), 0);
    u32::from_le_bytes(out)
}

fn bit(dims: u32, bytes: &[u8], index: u32) -> u32 {
    let mut out = [0xEE; 4];
    assert_eq!(code::bit(dims, bytes, index, &mut out), 0);
    u32::from_le_bytes(out)
}

fn encode(dims: u32, factors: &[f32], vector: &[f32]) -> Vec<u8> {
    let mut out = vec![0xEE; size_of(dims)];
    assert_eq!(code::encode(dims, &of_floats(factors), &of_floats(vector), &mut out), 0);
    out
}

// ---- what is accepted

#[test]
fn sizes() {
    assert_eq!([1, 64, 65, 4_369].map(size), [24, 24, 32, 568]);
    for dims in 1..=4_369 {
        assert_eq!(try_size(dims, 4), 0);
        assert_eq!(size(dims) as usize, 16 + 8 * (dims as usize).div_ceil(64));
    }
}

/// Every dims from 1 to 300 and around 4,369, against the Rust's `encode`, and read back bit by bit.
#[test]
fn like_the_rust_at_every_dims() {
    let mut rng = Rng::new(1);
    for dims in (1..=300).chain([511, 512, 513, 1_024, 4_031, 4_032, 4_033, 4_367, 4_368, 4_369]) {
        let factors = rng.floats(4);
        let vector = rng.finite_floats(dims as usize);
        assert_eq!(try_encode(dims, &of_floats(&factors), &of_floats(&vector), size_of(dims)), 0);
        let code = encode(dims, &factors, &vector);
        assert_eq!(code, rust::code_encode(dims, factors.try_into().unwrap(), &vector), "{dims} dims");
        for (i, x) in vector.iter().enumerate() {
            assert_eq!(bit(dims, &code, i as u32), u32::from(x.is_sign_positive()), "bit {i} of {dims}");
        }
    }
}

#[test]
fn the_sign_bit_decides() {
    for (i, x) in FINITE.iter().enumerate() {
        let code = encode(1, &[0.0; 4], &[*x]);
        assert_eq!(code[16], u8::from(x.to_bits() < 0x8000_0000), "{i}: {x}");
        assert_eq!(code[17..], [0; 7]);
    }
    assert_eq!(encode(2, &[0.0; 4], &[0.0, -0.0])[16], 1, "-0.0 gives 0");
}

/// Factors are copied bit for bit, whatever they are.
#[test]
fn factors_of_any_bits() {
    let mut rng = Rng::new(2);
    for factor in NOT_FINITE.iter().chain(&FINITE) {
        for place in 0..4 {
            let mut factors = [0x1234_5678; 4];
            factors[place] = factor.to_bits();
            let mut code = [0xEE; 24];
            assert_eq!(code::encode(1, &of_words(&factors), &of_floats(&[1.0]), &mut code), 0);
            assert_eq!(code[..16], of_words(&factors)[..]);
        }
    }
    for _ in 0..2_000 {
        let factors = rng.bytes(16);
        assert_eq!(try_encode(1, &factors, &of_floats(&[-1.0]), 24), 0);
    }
}

/// Where dims does not divide by 64, the bits after it are written as 0 and no call reads them.
#[test]
fn pad_bits() {
    for dims in [1, 2, 63, 65, 127, 4_369] {
        let code = encode(dims, &[0.0; 4], &vec![1.0; dims as usize]);
        let ones: u32 = code[16..].iter().map(|byte| byte.count_ones()).sum();
        assert_eq!(ones, dims);
        let mut padded = vec![0xFF; size_of(dims)];
        padded[16 + (dims as usize - 1) / 8] &= !(1 << ((dims - 1) % 8));
        assert_eq!(bit(dims, &padded, dims - 1), 0);
        for index in [dims, dims + 1, dims.next_multiple_of(64) - 1] {
            assert_eq!(try_bit(dims, &padded, index, 4), 6);
        }
    }
}

// ---- what is refused

#[test]
fn bad_dims_come_first() {
    for dims in OUTER_DIMS {
        for len in [0, 4, 5, 16, 24] {
            assert_eq!(try_size(dims, len), 1);
            assert_eq!(try_encode(dims, &vec![0xFF; len], &vec![0xFF; len], len), 1);
            assert_eq!(try_bit(dims, &vec![0xFF; len], u32::MAX, len), 1);
        }
    }
    assert_eq!(try_size(4_370, 4), 1);
}

#[test]
fn then_a_bad_length() {
    for dims in [1u32, 3, 64, 65, 300, 4_369] {
        let (n, size) = (4 * dims as usize, size_of(dims));
        for len in [0, 3, 5, 8] {
            assert_eq!(try_size(dims, len), 3);
            assert_eq!(try_bit(dims, &vec![0; size], 0, len), 3);
            assert_eq!(try_bit(dims, &vec![0; size], dims, len), 3);
        }
        // Vectors of NaNs: what is missing is judged later.
        for fill in [0x00, 0xFF] {
            for wrong in [0, 4, 12, 15, 17, 20] {
                assert_eq!(try_encode(dims, &vec![fill; wrong], &vec![fill; n], size), 3);
            }
            for wrong in [0, n - 1, n - 4, n + 1, n + 4] {
                assert_eq!(try_encode(dims, &[fill; 16], &vec![fill; wrong], size), 3);
            }
            for wrong in [0, size - 8, size - 1, size + 1, size + 8] {
                assert_eq!(try_encode(dims, &[fill; 16], &vec![fill; n], wrong), 3);
                assert_eq!(try_bit(dims, &vec![fill; wrong], 0, 4), 3);
                assert_eq!(try_bit(dims, &vec![fill; wrong], dims, 4), 3);
            }
        }
        assert_eq!(try_encode(dims, &[0; 16], &vec![0; n], size), 0);
    }
}

#[test]
fn then_what_is_missing() {
    for dims in [1u32, 2, 7, 8, 63, 64, 65, 130] {
        for place in 0..dims as usize {
            for bad in NOT_FINITE {
                let mut vector = vec![1.0; dims as usize];
                vector[place] = bad;
                assert_eq!(try_encode(dims, &[0xFF; 16], &of_floats(&vector), size_of(dims)), 4);
            }
        }
    }
}

#[test]
fn then_an_index_past_the_end() {
    for dims in [1u32, 63, 64, 65, 300, 4_369] {
        let code = vec![0xFF; size_of(dims)];
        assert_eq!(try_bit(dims, &code, dims - 1, 4), 0);
        for index in [dims, dims + 1, dims + 64, 65_536 + dims - 1, 1 << 31, u32::MAX] {
            assert_eq!(try_bit(dims, &code, index, 4), 6);
        }
    }
}

#[test]
fn null_and_lengths_past_32_bits() {
    let list = [0u8; 24];
    let mut out = [0xEE; 24];
    let far = 1usize << 32;
    unsafe {
        let (l, o) = (list.as_ptr(), out.as_mut_ptr());
        assert_eq!(sys::lk_code_size(1, null_mut(), 0), 3);
        assert_eq!(sys::lk_code_size(0, null_mut(), 0), 1);
        assert_eq!(sys::lk_code_encode(1, null(), 0, null(), 0, null_mut(), 0), 3);
        assert_eq!(sys::lk_code_bit(1, null(), 0, 0, null_mut(), 0), 3);
        assert_eq!(sys::lk_code_size(1, o, far + 4), 3);
        assert_eq!(sys::lk_code_encode(1, l, far + 16, l, 4, o, 24), 3);
        assert_eq!(sys::lk_code_encode(1, l, 16, l, far + 4, o, 24), 3);
        assert_eq!(sys::lk_code_encode(1, l, 16, l, 4, o, far + 24), 3);
        assert_eq!(sys::lk_code_bit(1, l, far + 24, 0, o, 4), 3);
        assert_eq!(sys::lk_code_bit(1, l, 24, 0, o, far + 4), 3);
    }
    assert_eq!(out, [0xEE; 24]);
}
