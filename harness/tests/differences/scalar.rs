//! Module 2.

use harness::bytes::{of_floats, of_words, NAN};
use harness::trial::panics;
use harness::upstream::base::VectL2;
use harness::upstream::quantize::mul_add_round;
use harness::upstream::scalar::OperatorScalarQuantization;
use harness::{rust, scalar};

fn encode(bits: u32, x: f32, min: f32, max: f32) -> Result<u8, u32> {
    let mut code = [0xEE];
    let [x, min, max] = [x, min, max].map(|x| of_floats(&[x]));
    match scalar::encode(1, bits, &x, &min, &max, &mut code) {
        0 => Ok(code[0]),
        number => Err(number),
    }
}

fn theirs(bits: u32, x: f32, min: f32, max: f32) -> u8 {
    rust::scalar_encode(1, bits, &[x], &[min], &[max])[0]
}

/// `process` rounds the size of a code down and `encode` rounds it up: at dims 1 and width 1 the one does not take what
/// the other wrote.
#[test]
fn process_wants_the_floor_and_encode_writes_the_ceiling() {
    let code = rust::scalar_encode(1, 1, &[1.0], &[0.0], &[1.0]);
    let table = rust::scalar_table(1, 1, 1, &[1.0], &[0.0], &[1.0]);
    assert_eq!((&code[..], &table[..]), (&[1][..], &[1.0, 0.0][..]));
    assert!(panics(|| VectL2::process(1, 1, &table, &code)));
    let mut out = [0xEE; 4];
    assert_eq!(scalar::distance(1, 1, 1, &of_floats(&table), &code, &mut out), 0);
    assert_eq!(out, [0; 4]);
}

/// Above 65,535 dims `encode` goes on, and `preprocess` and `process` end the program.
#[test]
fn more_than_65535_dims() {
    let (dims, n) = (65_536, 65_536);
    let floats = vec![0.0; n];
    let code = rust::scalar_encode(dims, 1, &floats, &floats, &floats);
    assert_eq!(code.len(), n / 8);
    assert!(panics(|| rust::scalar_table(1, dims, 1, &floats, &floats, &floats)));
    assert!(panics(|| VectL2::process(dims, 1, &vec![0.0; 2 * n], &code)));
    let (list, mut out, mut table) = (vec![0; 4 * n], vec![0xEE; n / 8], vec![0xEE; 8 * n]);
    assert_eq!(scalar::encode(dims, 1, &list, &list, &list, &mut out), 1);
    assert_eq!(scalar::table(1, dims, 1, &list, &list, &list, &mut table), 1);
    assert_eq!(scalar::distance(1, dims, 1, &vec![0; 8 * n], &code, &mut out[..4]), 1);
}

/// No dims at all: the Rust encodes nothing to nothing, and only `process` ends the program.
#[test]
fn no_dims() {
    assert_eq!(rust::scalar_encode(0, 1, &[], &[], &[]), []);
    assert_eq!(rust::scalar_table(1, 0, 1, &[], &[], &[]), []);
    assert!(panics(|| VectL2::process(0, 1, &[], &[])));
    let mut out = [0xEE; 4];
    assert_eq!(scalar::encode(0, 1, &[], &[], &[], &mut []), 1);
    assert_eq!(scalar::table(1, 0, 1, &[], &[], &[], &mut []), 1);
    assert_eq!(scalar::distance(1, 0, 1, &[], &[], &mut out), 1);
}

/// An untrained column, min +infinity and max -infinity, encodes to 0 there.
#[test]
fn an_untrained_column() {
    assert_eq!(theirs(1, 1.0, f32::INFINITY, f32::NEG_INFINITY), 0);
    assert_eq!(encode(1, 1.0, f32::INFINITY, f32::NEG_INFINITY), Err(4));
}

/// A NaN gives code 0 there.
#[test]
fn a_nan_in_a_vector() {
    assert_eq!(theirs(1, f32::NAN, 0.0, 1.0), 0);
    assert_eq!(encode(1, f32::NAN, 0.0, 1.0), Err(4));
    assert_eq!(theirs(1, 1.0, f32::NAN, 1.0), 0);
    assert_eq!(encode(1, 1.0, f32::NAN, 1.0), Err(4));
    assert_eq!(theirs(1, 1.0, 0.0, f32::NAN), 0);
    assert_eq!(encode(1, 1.0, 0.0, f32::NAN), Err(4));
}

/// min above max is encoded there all the same.
#[test]
fn min_above_max() {
    assert_eq!(theirs(1, 0.0, 1.0, 0.0), 1);
    assert_eq!(encode(1, 0.0, 1.0, 0.0), Err(5));
}

/// A sum that is a NaN is handed out there.
#[test]
fn a_sum_that_is_a_nan() {
    let table = [f32::NAN, 0.0];
    assert!(rust::scalar_distance(1, 1, 1, &table, &[0]).unwrap().is_nan());
    let mut out = [0xEE; 4];
    assert_eq!(scalar::distance(1, 1, 1, &of_floats(&table), &[0], &mut out), 8);
    assert_eq!(out, [0xEE; 4]);
}

/// A NaN entry of a table has one pattern here. There it is whatever the CPU makes: the sign is set on x86-64.
#[test]
fn a_nan_entry_has_one_pattern() {
    let (x, min, max) = (0.0, -f32::MAX, f32::MAX);
    assert!(rust::scalar_table(2, 1, 1, &[x], &[min], &[max])[0].is_nan());
    let mut table = [0xEE; 8];
    let [x, min, max] = [x, min, max].map(|x| of_floats(&[x]));
    assert_eq!(scalar::table(2, 1, 1, &x, &min, &max, &mut table), 0);
    assert_eq!(table, of_words(&[NAN, NAN])[..]);
}

/// A width that is none ends the program there.
#[test]
fn a_width_that_is_none() {
    assert!(panics(|| rust::scalar_encode(1, 3, &[0.0], &[0.0], &[1.0])));
    assert_eq!(encode(3, 0.0, 0.0, 1.0), Err(2));
}

/// The Rust's query quantizer rounds x * (1/k) + (-b/k), fused; the scalar quantizer rounds (x - b) / k, with the same
/// k.
#[test]
fn the_query_quantizer_rounds_something_else() {
    let (x, least, greatest) = (3.5, 3.0, 4.0);
    let k = (greatest - least) / 15.0;
    assert_eq!(mul_add_round(&[x], 1.0 / k, -least / k), [8]);
    assert_eq!(encode(4, x, least, greatest), Ok(7));
}
