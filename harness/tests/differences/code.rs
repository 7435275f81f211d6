//! Module 4.

use harness::bytes::of_floats;
use harness::trial::panics;
use harness::upstream::base::VectL2;
use harness::upstream::rabitq::{self, RabitqQuantizer};
use harness::{block, code, rust};

/// Where bits are missing the Rust fills with zeros; here a vector of another length is refused.
#[test]
fn a_missing_number_is_filled_with_zero() {
    let theirs = RabitqQuantizer::<VectL2>::new(1).encode(rust::coded([0.0; 4], vec![]));
    assert_eq!(theirs, [0; 24]);
    let mut out = [0xEE; 24];
    assert_eq!(code::encode(1, &[0; 16], &[], &mut out), 3);
    assert_eq!(out, [0xEE; 24]);
}

/// A NaN and an infinity have a sign bit, and the Rust takes it; here they are missing.
#[test]
fn a_nan_has_a_sign_there() {
    for x in [f32::NAN, f32::INFINITY] {
        assert_eq!(rust::code_encode(1, [0.0; 4], &[x])[16], 1);
        let mut out = [0xEE; 24];
        assert_eq!(code::encode(1, &[0; 16], &of_floats(&[x]), &mut out), 4);
    }
}

/// No dims at all: the Rust writes the factors alone, and here it is refused.
#[test]
fn no_dims() {
    let quantizer = RabitqQuantizer::<VectL2>::new(0);
    assert_eq!((quantizer.code_size(), quantizer.fcode_size()), (16, 512));
    assert_eq!(quantizer.encode(rust::coded([0.0; 4], vec![])), [0; 16]);
    let (mut size, mut out) = ([0xEE; 4], [0xEE; 16]);
    assert_eq!((code::size(0, &mut size), block::size(0, &mut size)), (1, 1));
    assert_eq!(code::encode(0, &[0; 16], &[], &mut out), 1);
}

/// The Rust wants codes aligned to 8 bytes, and ends the program where they are not.
#[test]
fn codes_at_any_address() {
    let aligned = rust::Aligned::new(&[0; 32]);
    let bytes = aligned.as_ref();
    assert!(!panics(|| rabitq::parse_code(&bytes[..24])));
    let mut out = [0xEE; 4];
    for from in 1..8 {
        assert!(panics(|| rabitq::parse_code(&bytes[from..from + 24])));
        assert_eq!(code::bit(1, &bytes[from..from + 24], 0, &mut out), 0);
    }
}
