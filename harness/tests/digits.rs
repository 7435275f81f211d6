//! Module 1 through its C functions: rows, round trip, every refusal, and every byte of every buffer.

use harness::refusal::*;
use harness::rng::Rng;
use harness::{digits, paper, sys, trial};
use std::collections::BTreeSet;
use std::hint::black_box;
use std::ptr::{null, null_mut};

const WIDTHS: [u32; 4] = [1, 2, 4, 8];
const BAD_WIDTHS: [u32; 9] = [0, 3, 5, 6, 7, 9, 16, 1 << 31, u32::MAX];
const OUTER_DIMS: [u32; 5] = [0, 65_536, 65_537, 1 << 31, u32::MAX];

fn try_size(dims: u32, bits: u32, out_len: usize) -> u32 {
    let what = format!("size of {dims} dims, width {bits}, out of {out_len}");
    trial::one(&what, out_len, |out| digits::size(dims, bits, out), |old| paper::digits::size(dims, bits, old))
}

fn try_pack(dims: u32, bits: u32, codes: &[u8], packed_len: usize) -> u32 {
    let what = format!("pack {dims} dims, width {bits}, {} codes, packed of {packed_len}", codes.len());
    let kept = codes.to_vec();
    let number = trial::one(
        &what,
        packed_len,
        |packed| digits::pack(dims, bits, codes, packed),
        |old| paper::digits::pack(dims, bits, codes, old),
    );
    assert_eq!(black_box(codes), kept, "{what}: the codes were written");
    number
}

fn try_read(dims: u32, bits: u32, packed: &[u8], index: u32, out_len: usize) -> u32 {
    let what = format!("read {index} of {dims} dims, width {bits}, packed of {}, out of {out_len}", packed.len());
    let kept = packed.to_vec();
    let number = trial::one(
        &what,
        out_len,
        |out| digits::read(dims, bits, packed, index, out),
        |old| paper::digits::read(dims, bits, packed, index, old),
    );
    assert_eq!(black_box(packed), kept, "{what}: the packed digits were written");
    number
}

fn size_of(dims: u32, bits: u32) -> usize {
    let mut out = [0; 4];
    assert_eq!(digits::size(dims, bits, &mut out), ACCEPTED);
    u32::from_le_bytes(out) as usize
}

fn digit(dims: u32, bits: u32, packed: &[u8], index: u32) -> u32 {
    let mut out = [0xEE; 4];
    assert_eq!(digits::read(dims, bits, packed, index, &mut out), ACCEPTED);
    u32::from_le_bytes(out)
}

fn random_codes(rng: &mut Rng, bits: u32, n: u32) -> Vec<u8> {
    (0..n).map(|_| (rng.word() % (1 << bits)) as u8).collect()
}

// ---- what is accepted

#[test]
fn the_papers_rows() {
    let mut packed = [0xEE; 2];
    assert_eq!(digits::pack(3, 4, &[1, 2, 3], &mut packed), ACCEPTED);
    assert_eq!(packed, [0x21, 0x03]);
    assert_eq!(digits::pack(5, 2, &[1, 2, 3, 0, 1], &mut packed), ACCEPTED);
    assert_eq!(packed, [0x39, 0x01]);
    assert_eq!([0, 1, 2, 3, 4].map(|i| digit(5, 2, &packed, i)), [1, 2, 3, 0, 1]);
}

#[test]
fn the_size_at_every_dims() {
    for bits in WIDTHS {
        for dims in 1..=65_535u32 {
            assert_eq!(size_of(dims, bits), (dims as usize * bits as usize).div_ceil(8), "{dims} dims, width {bits}");
        }
    }
}

#[test]
fn packed_digits_read_back() {
    let mut rng = Rng::new(1);
    for bits in WIDTHS {
        for dims in (1..=80).chain([255, 256, 257, 1024, 4369, 65_534, 65_535]) {
            let codes = random_codes(&mut rng, bits, dims);
            assert_eq!(try_pack(dims, bits, &codes, size_of(dims, bits)), ACCEPTED);
            let mut packed = vec![0xEE; size_of(dims, bits)];
            assert_eq!(digits::pack(dims, bits, &codes, &mut packed), ACCEPTED);
            for (i, code) in codes.iter().enumerate() {
                assert_eq!(digit(dims, bits, &packed, i as u32), u32::from(*code), "digit {i} of {dims}, width {bits}");
            }
        }
    }
}

#[test]
fn the_fill_is_zero_and_ignored() {
    for (bits, in_a_byte) in [(1, 8), (2, 4), (4, 2)] {
        for dims in 1..=33u32 {
            let used = dims % in_a_byte * bits;
            if used == 0 {
                continue;
            }
            let top = vec![(1u8 << bits) - 1; dims as usize];
            let mut packed = vec![0xFF; size_of(dims, bits)];
            assert_eq!(digits::pack(dims, bits, &top, &mut packed), ACCEPTED);
            let last = packed.len() - 1;
            assert_eq!(packed[last], (1 << used) - 1, "fill of {dims} dims, width {bits}");
            packed[last] |= 0xFF << used;
            for i in 0..dims {
                assert_eq!(try_read(dims, bits, &packed, i, 4), ACCEPTED);
                assert_eq!(digit(dims, bits, &packed, i), u32::from(top[i as usize]));
            }
            packed[last] = 0xFF << used;
            assert_eq!(digit(dims, bits, &packed, dims - 1), 0, "last digit of {dims}, width {bits}");
        }
    }
}

#[test]
fn every_byte_at_every_place() {
    for (bits, in_a_byte) in [(1, 8), (2, 4), (4, 2), (8, 1)] {
        for byte in 0..=255u8 {
            for place in 0..in_a_byte {
                let want = u32::from(byte) >> (bits * place) & ((1 << bits) - 1);
                assert_eq!(digit(in_a_byte, bits, &[byte], place), want);
            }
        }
    }
}

// ---- what is refused

#[test]
fn bad_dims_come_first() {
    for dims in OUTER_DIMS {
        for bits in WIDTHS.iter().chain(&BAD_WIDTHS) {
            for len in [0, 1, 3, 4, 5] {
                assert_eq!(try_size(dims, *bits, len), 1);
                assert_eq!(try_pack(dims, *bits, &[0xFF; 4][..len.min(4)], len), 1);
                assert_eq!(try_read(dims, *bits, &[0xFF; 5][..len], dims, len), 1);
            }
        }
    }
    assert_eq!(try_size(1, 1, 4), 0);
    assert_eq!(try_size(65_535, 8, 4), 0);
}

#[test]
fn then_a_bad_width() {
    for bits in BAD_WIDTHS {
        for dims in [1, 2, 7, 65_535] {
            for len in [0, 1, 2, 4, 5, 65_535] {
                assert_eq!(try_size(dims, bits, len), 2);
                assert_eq!(try_pack(dims, bits, &vec![0xFF; len], len), 2);
                assert_eq!(try_read(dims, bits, &vec![0xFF; len], dims, len), 2);
            }
        }
    }
}

#[test]
fn then_a_bad_length() {
    for bits in WIDTHS {
        for dims in [1, 2, 3, 8, 9, 100, 65_535u32] {
            let (n, size) = (dims as usize, size_of(dims, bits));
            for len in [0, 3, 5, 8] {
                assert_eq!(try_size(dims, bits, len), 3);
                assert_eq!(try_read(dims, bits, &vec![0; size], 0, len), 3);
                assert_eq!(try_read(dims, bits, &vec![0; size], dims, len), 3);
            }
            for codes in [0, n - 1, n + 1] {
                assert_eq!(try_pack(dims, bits, &vec![0; codes], size), 3);
                assert_eq!(try_pack(dims, bits, &vec![0xFF; codes], size), 3);
            }
            for packed in [0, size - 1, size + 1] {
                assert_eq!(try_pack(dims, bits, &vec![0; n], packed), 3);
                assert_eq!(try_pack(dims, bits, &vec![0xFF; n], packed), 3);
                assert_eq!(try_read(dims, bits, &vec![0; packed], 0, 4), 3);
                assert_eq!(try_read(dims, bits, &vec![0; packed], dims, 4), 3);
            }
            assert_eq!(try_pack(dims, bits, &vec![0; n + 1], size + 1), 3);
            assert_eq!(try_pack(dims, bits, &vec![0; n], size), 0);
            assert_eq!(try_read(dims, bits, &vec![0; size], 0, 4), 0);
        }
    }
}

#[test]
fn then_a_code_above_the_top() {
    for (bits, top) in [(1, 1u8), (2, 3), (4, 15)] {
        for dims in [1, 2, 3, 4, 7, 8, 9, 31, 32, 33, 300] {
            let size = size_of(dims, bits);
            let good = vec![top; dims as usize];
            assert_eq!(try_pack(dims, bits, &good, size), 0);
            for place in 0..dims as usize {
                for above in [top + 1, 0x80, 0xFF] {
                    let mut codes = good.clone();
                    codes[place] = above;
                    assert_eq!(try_pack(dims, bits, &codes, size), 5, "code {above} at {place}");
                }
            }
        }
    }
    assert_eq!(try_pack(256, 8, &(0..=255).collect::<Vec<u8>>(), 256), 0, "at width 8 no code is above the top");
}

#[test]
fn then_an_index_past_the_end() {
    for bits in WIDTHS {
        for dims in [1, 2, 3, 7, 8, 9, 65_535u32] {
            let packed = vec![0xFF; size_of(dims, bits)];
            assert_eq!(try_read(dims, bits, &packed, dims - 1, 4), 0);
            for index in [dims, dims + 1, 65_536 + dims - 1, 1 << 31, u32::MAX] {
                assert_eq!(try_read(dims, bits, &packed, index, 4), 6, "index {index} of {dims}");
            }
        }
    }
}

#[test]
fn conditions_in_every_mixture() {
    let mut rng = Rng::new(2);
    let (mut sizes, mut packs, mut reads) = (BTreeSet::new(), BTreeSet::new(), BTreeSet::new());
    for round in 0..40_000 {
        let dims = match round % 16 {
            0 => rng.pick(&OUTER_DIMS),
            1 => 1 + rng.below(3000) as u32,
            _ => 1 + rng.below(70) as u32,
        };
        let bits = if rng.once_in(12) { rng.pick(&BAD_WIDTHS) } else { rng.pick(&WIDTHS) };
        let damage = |rng: &mut Rng, n: usize| match rng.below(16) {
            0 => n + 1,
            1 => n.saturating_sub(1),
            2 => rng.below(2 * n + 2),
            _ => n,
        };
        // What the lengths should be; where dims or the width is bad, what they might have been.
        let n = (dims as usize).min(3000);
        let size = (n * bits.min(8) as usize).div_ceil(8);
        let mut codes = random_codes(&mut rng, bits.clamp(1, 8), n as u32);
        codes.resize(damage(&mut rng, n), 0);
        if rng.once_in(6) && !codes.is_empty() {
            let place = rng.below(codes.len());
            codes[place] = rng.word() as u8;
        }
        sizes.insert(try_size(dims, bits, damage(&mut rng, 4)));
        packs.insert(try_pack(dims, bits, &codes, damage(&mut rng, size)));
        let len = damage(&mut rng, size);
        let packed = rng.bytes(len);
        let index = if rng.once_in(4) { rng.word() as u32 } else { rng.below(n + 2) as u32 };
        reads.insert(try_read(dims, bits, &packed, index, damage(&mut rng, 4)));
    }
    assert_eq!(sizes, BTreeSet::from([ACCEPTED, BAD_DIMS, BAD_WIDTH, BAD_LENGTH]));
    assert_eq!(packs, BTreeSet::from([ACCEPTED, BAD_DIMS, BAD_WIDTH, BAD_LENGTH, BAD_VALUE]));
    assert_eq!(reads, BTreeSet::from([ACCEPTED, BAD_DIMS, BAD_WIDTH, BAD_LENGTH, OUT_OF_RANGE]));
}

// ---- pointers

/// A buffer of no bytes may have any pointer. No call here is accepted: each has a buffer that ought to have bytes.
#[test]
fn null_with_length_0() {
    let mut four = [0xEE; 4];
    let good = [1u8];
    unsafe {
        for (dims, bits, number) in
            [(0, 1, 1), (65_536, 1, 1), (u32::MAX, 1, 1), (1, 0, 2), (1, 16, 2), (1, 1, 3), (65_535, 8, 3)]
        {
            assert_eq!(sys::lk_digits_size(dims, bits, null_mut(), 0), number);
            assert_eq!(sys::lk_digits_pack(dims, bits, null(), 0, null_mut(), 0), number);
            assert_eq!(sys::lk_digits_pack(dims, bits, null(), 0, four.as_mut_ptr(), 1), number);
            assert_eq!(sys::lk_digits_read(dims, bits, null(), 0, 0, null_mut(), 0), number);
            assert_eq!(sys::lk_digits_read(dims, bits, null(), 0, 0, four.as_mut_ptr(), 4), number);
            let any = usize::MAX as *mut u8;
            assert_eq!(sys::lk_digits_pack(dims, bits, any, 0, any, 0), number);
        }
        assert_eq!(sys::lk_digits_pack(1, 1, good.as_ptr(), 1, null_mut(), 0), 3);
        assert_eq!(sys::lk_digits_read(1, 1, good.as_ptr(), 1, 0, null_mut(), 0), 3);
    }
    assert_eq!(four, [0xEE; 4]);
}

/// A length that is right in its low 32 bits alone is wrong. No buffer is that long: lengths are judged before a byte
/// is read or written.
#[test]
fn lengths_are_not_cut_to_32_bits() {
    let far = 1usize << 32;
    let mut out = [0xEE; 4];
    let read = [1u8; 4];
    unsafe {
        assert_eq!(sys::lk_digits_size(1, 1, out.as_mut_ptr(), far + 4), 3);
        assert_eq!(sys::lk_digits_pack(4, 8, read.as_ptr(), far + 4, out.as_mut_ptr(), 4), 3);
        assert_eq!(sys::lk_digits_pack(4, 8, read.as_ptr(), 4, out.as_mut_ptr(), far + 4), 3);
        assert_eq!(sys::lk_digits_read(4, 8, read.as_ptr(), far + 4, 0, out.as_mut_ptr(), 4), 3);
        assert_eq!(sys::lk_digits_read(4, 8, read.as_ptr(), 4, 0, out.as_mut_ptr(), far + 4), 3);
    }
    assert_eq!(out, [0xEE; 4]);
}
