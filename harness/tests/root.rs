//! Module 3 through its C function: the paper's rows, the hardware's root, every refusal, and every byte of the buffer.

use harness::draw::{FINITE, NANS};
use harness::rng::Rng;
use harness::{paper, root, sys, trial};
use std::ptr::null_mut;

fn try_root(x: f32, len: usize) -> u32 {
    let what = format!("root of {:#010X}, out of {len}", x.to_bits());
    trial::one(&what, len, |out| root::root(x, out), |old| paper::root::call(x, old))
}

fn bits_of_root(x: f32) -> u32 {
    let mut out = [0xEE; 4];
    assert_eq!(root::root(x, &mut out), 0, "root of {:#010X}", x.to_bits());
    u32::from_le_bytes(out)
}

fn like_the_hardware(bits: u32) {
    let x = f32::from_bits(bits);
    assert_eq!(bits_of_root(x), x.sqrt().to_bits(), "root of {bits:#010X}");
}

#[test]
fn the_papers_rows() {
    assert_eq!(bits_of_root(2.0), 0x3FB5_04F3);
    assert_eq!(bits_of_root(f32::from_bits(1)), 0x1A35_04F3);
    assert_eq!(bits_of_root(-0.0), 0x8000_0000);
    assert_eq!(bits_of_root(0.0), 0);
    assert_eq!(bits_of_root(f32::INFINITY), 0x7F80_0000);
    assert_eq!(bits_of_root(9.0), 3f32.to_bits());
    assert_eq!(bits_of_root(f32::MAX), 0x5F7F_FFFF);
}

#[test]
fn the_plain_reading_is_the_hardwares_root() {
    let mut rng = Rng::new(1);
    for _ in 0..200_000 {
        let x = f32::from_bits(rng.word() as u32 & 0x7FFF_FFFF);
        if !x.is_nan() {
            assert_eq!(paper::root::root(x).to_bits(), x.sqrt().to_bits(), "{:#010X}", x.to_bits());
        }
    }
}

/// The first and last numbers of every exponent, and numbers in between.
#[test]
fn at_every_exponent() {
    for exponent in 0..255u32 {
        let first = exponent << 23;
        for i in 0..300 {
            like_the_hardware(first + i);
            like_the_hardware(first + 0x7F_FFFF - i);
            like_the_hardware(first + 27_901 * i);
        }
    }
}

/// Where the root is a number of 24 bits or lies near the middle of two.
#[test]
fn around_squares_and_middles() {
    let mut rng = Rng::new(2);
    for i in 0..300_000u32 {
        let y = 0x2000_0000 + if i < 4096 { i << 12 } else { rng.below(0x3F00_0000) as u32 };
        let y = f32::from_bits(y);
        let middle = (f64::from(y) + f64::from(f32::from_bits(y.to_bits() + 1))) / 2.0;
        for square in [y * y, (middle * middle) as f32] {
            for away in 0..5 {
                let bits = square.to_bits().wrapping_add(away).wrapping_sub(2);
                if bits <= 0x7F80_0000 {
                    like_the_hardware(bits);
                }
            }
        }
    }
}

#[test]
fn any_bits() {
    let mut rng = Rng::new(3);
    for _ in 0..2_000_000 {
        let x = f32::from_bits(rng.word() as u32);
        if x >= 0.0 {
            like_the_hardware(x.to_bits());
        } else if x < 0.0 || x.is_nan() {
            let mut out = [0xEE; 4];
            assert_eq!(root::root(x, &mut out), 4);
            assert_eq!(out, [0xEE; 4]);
        }
    }
}

/// Every pattern there is: minutes, so it is run by name.
#[test]
#[ignore]
fn every_pattern() {
    for bits in 0..=0x7F80_0000 {
        like_the_hardware(bits);
    }
}

#[test]
fn bad_lengths_come_first() {
    for x in FINITE.iter().chain(&NANS).chain(&[f32::INFINITY, f32::NEG_INFINITY]) {
        for len in [0, 1, 3, 5, 8, 16] {
            assert_eq!(try_root(*x, len), 3);
        }
    }
}

#[test]
fn then_a_nan_or_a_number_below_0() {
    for x in NANS {
        assert_eq!(try_root(x, 4), 4);
    }
    for x in [-1.0, -f32::MIN_POSITIVE, f32::MIN, f32::NEG_INFINITY, f32::from_bits(0x8000_0001)] {
        assert_eq!(try_root(x, 4), 4);
    }
    for x in FINITE.iter().filter(|x| **x >= 0.0).chain(&[f32::INFINITY]) {
        assert_eq!(try_root(*x, 4), 0);
    }
}

#[test]
fn null_and_lengths_past_32_bits() {
    let mut out = [0xEE; 4];
    unsafe {
        assert_eq!(sys::lk_root(2.0, null_mut(), 0), 3);
        assert_eq!(sys::lk_root(f32::NAN, null_mut(), 0), 3);
        assert_eq!(sys::lk_root(2.0, out.as_mut_ptr(), (1 << 32) + 4), 3);
    }
    assert_eq!(out, [0xEE; 4]);
}
