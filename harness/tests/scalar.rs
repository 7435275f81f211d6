//! Module 2 through its C functions: rows, the Rust's answers bit for bit, every refusal, and every byte of every
//! buffer.

use harness::bytes::{floats, of_floats, of_words, words, NAN};
use harness::draw::{FINITE, NANS, NOT_FINITE};
use harness::paper::digits::{size_of, WIDTHS};
use harness::rng::Rng;
use harness::{paper, rust, scalar, sys, trial};
use std::ptr::{null, null_mut};

const OUTER_DIMS: [u32; 5] = [0, 65_536, 65_537, 1 << 31, u32::MAX];
const BAD_WIDTHS: [u32; 9] = [0, 3, 5, 6, 7, 9, 16, 1 << 31, u32::MAX];
const BAD_METRICS: [u32; 5] = [0, 3, 257, 1 << 31, u32::MAX];

fn try_encode(dims: u32, bits: u32, vector: &[u8], min: &[u8], max: &[u8], len: usize) -> u32 {
    let what = format!("encode {dims} dims, width {bits}, {:?} {:?} {:?}", floats(vector), floats(min), floats(max));
    trial::one(
        &what,
        len,
        |code| scalar::encode(dims, bits, vector, min, max, code),
        |old| paper::scalar::encode(dims, bits, vector, min, max, old),
    )
}

fn try_table(metric: u32, dims: u32, bits: u32, columns: [&[u8]; 3], len: usize) -> u32 {
    let [vector, min, max] = columns;
    let what = format!("table {metric}, {dims} dims, width {bits}, {:?}", columns.map(floats));
    trial::one(
        &what,
        len,
        |table| scalar::table(metric, dims, bits, vector, min, max, table),
        |old| paper::scalar::table(metric, dims, bits, vector, min, max, old),
    )
}

fn try_distance(metric: u32, dims: u32, bits: u32, table: &[u8], code: &[u8], len: usize) -> u32 {
    let what = format!("distance {metric}, {dims} dims, width {bits}, code {code:02X?}");
    trial::one(
        &what,
        len,
        |out| scalar::distance(metric, dims, bits, table, code, out),
        |old| paper::scalar::distance(metric, dims, bits, table, code, old),
    )
}

/// The code of one number.
fn code_of(bits: u32, x: f32, min: f32, max: f32) -> u8 {
    let mut code = [0xEE; 1];
    let [x, min, max] = [x, min, max].map(|x| of_floats(&[x]));
    assert_eq!(scalar::encode(1, bits, &x, &min, &max, &mut code), 0);
    code[0]
}

fn distance(metric: u32, dims: u32, bits: u32, table: &[f32], code: &[u8]) -> Result<u32, u32> {
    let mut out = [0xEE; 4];
    match scalar::distance(metric, dims, bits, &of_floats(table), code, &mut out) {
        0 => Ok(u32::from_le_bytes(out)),
        number => Err(number),
    }
}

// ---- what is accepted

#[test]
fn the_papers_rows() {
    for (x, code) in [(2.5, 2), (3.5, 4), (-1.0, 0), (99.0, 15)] {
        assert_eq!(code_of(4, x, 0.0, 15.0), code, "{x}");
    }
    for (x, code) in [(6.0, 0), (7.0, 0), (8.0, 15)] {
        assert_eq!(code_of(4, x, 7.0, 7.0), code, "{x}");
    }
}

/// Every half, and its neighbours, between two codes of every width.
#[test]
fn halves_go_to_the_even_code() {
    for bits in WIDTHS {
        let top = paper::digits::top(bits);
        for twice in 0..=2 * top {
            let half = twice as f32 / 2.0;
            let even = if twice % 2 == 0 { twice / 2 } else { (twice / 2).next_multiple_of(2) };
            assert_eq!(u32::from(code_of(bits, half, 0.0, top as f32)), even.min(top), "{half} at width {bits}");
            if twice % 2 == 1 {
                let (below, above) = (half.to_bits() - 1, half.to_bits() + 1);
                assert_eq!(u32::from(code_of(bits, f32::from_bits(below), 0.0, top as f32)), twice / 2);
                assert_eq!(u32::from(code_of(bits, f32::from_bits(above), 0.0, top as f32)), twice / 2 + 1);
            }
        }
    }
}

/// Finite input reaches a q that is NaN or infinite: del of 0, del infinite, x - min past the greatest float.
#[test]
fn q_that_is_no_number() {
    let far = f32::MAX;
    for bits in WIDTHS {
        let top = paper::digits::top(bits) as u8;
        assert_eq!(code_of(bits, 1.0, 1.0, 1.0), 0, "0 / 0");
        assert_eq!(code_of(bits, 2.0, 1.0, 1.0), top, "1 / 0");
        assert_eq!(code_of(bits, 0.0, 1.0, 1.0), 0, "-1 / 0");
        assert_eq!(code_of(bits, far, -far, far), 0, "infinite / infinite");
        assert_eq!(code_of(bits, 0.0, -far, far), 0, "finite / infinite");
        assert_eq!(code_of(bits, far, -far, 0.0), top, "infinite / finite");
        assert_eq!(code_of(bits, -far, far, far), 0, "-infinite / 0");
        assert_eq!(code_of(bits, 0.0, 0.0, -0.0), 0, "min +0.0 is not above max -0.0");
        assert_eq!(code_of(bits, f32::from_bits(1), 0.0, f32::from_bits(1)), top, "del rounds to 0");
    }
}

/// All mixtures of boundary numbers, against the Rust and the paper.
#[test]
fn boundaries_in_every_place() {
    let mut columns = Vec::new();
    for x in FINITE {
        for min in FINITE {
            for max in FINITE {
                if min <= max {
                    columns.push((x, min, max));
                }
            }
        }
    }
    let dims = columns.len() as u32;
    let [vector, min, max] = [
        columns.iter().map(|c| c.0).collect::<Vec<f32>>(),
        columns.iter().map(|c| c.1).collect(),
        columns.iter().map(|c| c.2).collect(),
    ];
    let [v, a, b] = [&vector, &min, &max].map(|list| of_floats(list));
    for bits in WIDTHS {
        let mut code = vec![0xEE; size_of(dims, bits)];
        assert_eq!(scalar::encode(dims, bits, &v, &a, &b, &mut code), 0);
        assert_eq!(code, rust::scalar_encode(dims, bits, &vector, &min, &max), "width {bits}");
        assert_eq!(paper::scalar::encode(dims, bits, &v, &a, &b, &code.clone()), (0, code));
        for metric in [1, 2] {
            let mut table = vec![0xEE; (4 * dims as usize) << bits];
            assert_eq!(scalar::table(metric, dims, bits, &v, &a, &b, &mut table), 0);
            let theirs = rust::scalar_table(metric, dims, bits, &vector, &min, &max);
            for (i, (ours, theirs)) in words(&table).into_iter().zip(theirs).enumerate() {
                assert_eq!(ours, harness::bytes::worked_out(theirs), "entry {i}, width {bits}, metric {metric}");
            }
        }
    }
}

/// Dims that divide by the codes in a byte and dims that don't, all widths, both metrics.
#[test]
fn like_the_rust_at_many_dims() {
    let mut rng = Rng::new(1);
    for dims in (1..=70).chain([127, 128, 129, 255, 256, 257, 1023, 1024, 1025]) {
        for bits in WIDTHS {
            let n = dims as usize;
            for round in 0..3 {
                let mut draw = || if round == 0 { rng.finite_floats(n) } else { rng.mild_floats(n) };
                let (vector, a, b) = (draw(), draw(), draw());
                let min: Vec<f32> = a.iter().zip(&b).map(|(a, b)| a.min(*b)).collect();
                let max: Vec<f32> = a.iter().zip(&b).map(|(a, b)| a.max(*b)).collect();
                let [v, lo, hi] = [&vector, &min, &max].map(|list| of_floats(list));
                assert_eq!(try_encode(dims, bits, &v, &lo, &hi, size_of(dims, bits)), 0);
                let mut code = vec![0xEE; size_of(dims, bits)];
                assert_eq!(scalar::encode(dims, bits, &v, &lo, &hi, &mut code), 0);
                assert_eq!(code, rust::scalar_encode(dims, bits, &vector, &min, &max));
                for metric in [1, 2] {
                    let theirs = rust::scalar_table(metric, dims, bits, &vector, &min, &max);
                    let mut table = vec![0xEE; (4 * n) << bits];
                    assert_eq!(scalar::table(metric, dims, bits, &v, &lo, &hi, &mut table), 0);
                    assert_eq!(table, harness::bytes::of_worked_out(&theirs));
                    let sum = rust::scalar_distance(metric, dims, bits, &theirs, &code).unwrap();
                    let ours = distance(metric, dims, bits, &theirs, &code);
                    assert_eq!(ours, if sum.is_nan() { Err(8) } else { Ok(sum.to_bits()) });
                }
            }
        }
    }
}

#[test]
fn tables_of_any_bits() {
    let mut rng = Rng::new(2);
    for _ in 0..20_000 {
        let (dims, bits, metric) = (1 + rng.below(20) as u32, rng.pick(&WIDTHS), rng.pick(&[1, 2]));
        let n = (dims as usize) << bits;
        let table = if rng.once_in(2) { rng.floats(n) } else { rng.finite_floats(n) };
        let code = rng.bytes(size_of(dims, bits));
        let sum = rust::scalar_distance(metric, dims, bits, &table, &code).unwrap();
        let want = if sum.is_nan() { Err(8) } else { Ok(sum.to_bits()) };
        assert_eq!(distance(metric, dims, bits, &table, &code), want);
    }
}

/// A sum begins at +0.0, goes from the left, and is negated for dot by its sign.
#[test]
fn how_a_sum_is_worked_out() {
    let big = f32::from_bits(0x4B80_0000); // 2^24: adding 1 to it changes nothing
    assert_eq!(distance(1, 3, 8, &row(&[big, 1.0, 1.0], 256), &[0; 3]), Ok(big.to_bits()));
    assert_eq!(distance(1, 3, 8, &row(&[1.0, 1.0, big], 256), &[0; 3]), Ok((big + 2.0).to_bits()));
    assert_eq!(distance(1, 1, 1, &[-0.0, 0.0], &[0]), Ok(0));
    assert_eq!(distance(2, 1, 1, &[-0.0, 0.0], &[0]), Ok(0x8000_0000));
    assert_eq!(distance(2, 1, 1, &[3.0, 0.0], &[0]), Ok((-3f32).to_bits()));
    assert_eq!(distance(1, 2, 1, &[f32::MAX, 0.0, f32::MAX, 0.0], &[0]), Ok(0x7F80_0000));
    assert_eq!(distance(2, 2, 1, &[f32::MAX, 0.0, f32::MAX, 0.0], &[0]), Ok(0xFF80_0000));
}

/// A table whose entry 0 of each dimension is given and whose others are 0.
fn row(entries: &[f32], levels: usize) -> Vec<f32> {
    entries.iter().flat_map(|x| std::iter::once(*x).chain(std::iter::repeat_n(0.0, levels - 1))).collect()
}

/// Entry 0 takes its step like the others, 0 times del: a NaN where del is infinite, and written as one pattern.
#[test]
fn a_nan_entry_is_written() {
    let mut table = [0xEE; 8];
    let [x, min, max] = [1.0, -f32::MAX, f32::MAX].map(|x| of_floats(&[x]));
    for metric in [1, 2] {
        assert_eq!(scalar::table(metric, 1, 1, &x, &min, &max, &mut table), 0);
        assert_eq!(words(&table), [NAN, 0x7F80_0000]);
    }
}

#[test]
fn the_fill_of_a_code_is_ignored() {
    for (bits, fill) in [(1, 0xFEu8), (2, 0xFC), (4, 0xF0)] {
        let table: Vec<f32> = (0..1 << bits).map(|j| j as f32).collect();
        assert_eq!(distance(1, 1, bits, &table, &[1 | fill]), Ok(1f32.to_bits()));
    }
}

// ---- what is refused

#[test]
fn bad_dims_come_first() {
    let nan = of_floats(&[f32::NAN; 2]);
    for dims in OUTER_DIMS {
        for bits in WIDTHS.iter().chain(&BAD_WIDTHS) {
            for len in [0, 1, 4, 8] {
                assert_eq!(try_encode(dims, *bits, &nan[..len], &nan, &nan, len), 1);
                assert_eq!(try_table(9, dims, *bits, [&nan[..len], &nan, &nan], len), 1);
                assert_eq!(try_distance(9, dims, *bits, &nan[..len], &nan[..len], len), 1);
            }
        }
    }
}

#[test]
fn then_a_bad_width() {
    let nan = of_floats(&[f32::NAN; 2]);
    for bits in BAD_WIDTHS {
        for dims in [1, 2, 65_535] {
            for len in [0, 1, 4, 8] {
                assert_eq!(try_encode(dims, bits, &nan[..len], &nan, &nan, len), 2);
                assert_eq!(try_table(9, dims, bits, [&nan[..len], &nan, &nan], len), 2);
                assert_eq!(try_distance(9, dims, bits, &nan[..len], &nan[..len], len), 2);
            }
        }
    }
}

#[test]
fn then_a_bad_length() {
    for bits in WIDTHS {
        for dims in [1u32, 3, 8, 9, 100] {
            let (n, code, table) = (4 * dims as usize, size_of(dims, bits), (4 * dims as usize) << bits);
            // Content that would be refused is not reached: NaNs, and min above max.
            for fill in [0x00, 0xFF] {
                let list = |len: usize| vec![fill; len];
                for wrong in [0, n - 1, n + 1, n + 4] {
                    for (v, a, b) in [(wrong, n, n), (n, wrong, n), (n, n, wrong)] {
                        assert_eq!(try_encode(dims, bits, &list(v), &list(a), &list(b), code), 3);
                        assert_eq!(try_table(1, dims, bits, [&list(v), &list(a), &list(b)], table), 3);
                        assert_eq!(try_table(3, dims, bits, [&list(v), &list(a), &list(b)], table), 3);
                    }
                }
                for wrong in [0, code - 1, code + 1] {
                    assert_eq!(try_encode(dims, bits, &list(n), &list(n), &list(n), wrong), 3);
                    assert_eq!(try_distance(1, dims, bits, &list(table), &list(wrong), 4), 3);
                    assert_eq!(try_distance(3, dims, bits, &list(table), &list(wrong), 4), 3);
                }
                for wrong in [0, table - 1, table + 1, table + 4] {
                    assert_eq!(try_table(1, dims, bits, [&list(n), &list(n), &list(n)], wrong), 3);
                    assert_eq!(try_distance(1, dims, bits, &list(wrong), &list(code), 4), 3);
                }
                for wrong in [0, 3, 5, 8] {
                    assert_eq!(try_distance(1, dims, bits, &list(table), &list(code), wrong), 3);
                }
            }
            // The floor, which the Rust asserts, is not the size where dims don't divide.
            let floor = dims as usize * bits as usize / 8;
            if floor != code {
                assert_eq!(try_encode(dims, bits, &vec![0; n], &vec![0; n], &vec![0; n], floor), 3);
            }
        }
    }
}

#[test]
fn then_what_is_missing() {
    for bits in WIDTHS {
        for dims in [1u32, 2, 7, 16, 33] {
            let n = dims as usize;
            for list in 0..3 {
                for place in 0..n {
                    for bad in NOT_FINITE {
                        // min above max in every column: that is judged later.
                        let mut lists = [vec![0.5; n], vec![1.0; n], vec![-1.0; n]];
                        lists[list][place] = bad;
                        let [v, a, b] = lists.map(|list| of_floats(&list));
                        assert_eq!(try_encode(dims, bits, &v, &a, &b, size_of(dims, bits)), 4);
                        for metric in [1, 2, 3] {
                            assert_eq!(try_table(metric, dims, bits, [&v, &a, &b], (4 * n) << bits), 4);
                        }
                    }
                }
            }
        }
    }
}

#[test]
fn then_a_bad_value() {
    for bits in WIDTHS {
        for dims in [1u32, 2, 7, 16, 33] {
            let n = dims as usize;
            let v = of_floats(&vec![0.5; n]);
            for place in 0..n {
                for (above, below) in [(1.0, 0.0), (f32::from_bits(1), -0.0), (f32::MAX, f32::MIN), (0.0, -f32::MAX)] {
                    let (mut min, mut max) = (vec![0.0; n], vec![1.0; n]);
                    (min[place], max[place]) = (above, below);
                    let (a, b) = (of_floats(&min), of_floats(&max));
                    assert_eq!(try_encode(dims, bits, &v, &a, &b, size_of(dims, bits)), 5);
                    assert_eq!(try_table(1, dims, bits, [&v, &a, &b], (4 * n) << bits), 5);
                }
            }
            let (a, b) = (of_floats(&vec![0.0; n]), of_floats(&vec![1.0; n]));
            for metric in BAD_METRICS {
                assert_eq!(try_table(metric, dims, bits, [&v, &a, &b], (4 * n) << bits), 5);
                let nan = of_words(&vec![NAN; n << bits]);
                assert_eq!(try_distance(metric, dims, bits, &nan, &vec![0; size_of(dims, bits)], 4), 5);
            }
            assert_eq!(try_encode(dims, bits, &v, &a, &a, size_of(dims, bits)), 0, "min equal to max");
            assert_eq!(try_table(1, dims, bits, [&v, &a, &b], (4 * n) << bits), 0);
        }
    }
}

/// A NaN at a digit of the code, two infinities that cancel; a NaN elsewhere in the table does not matter.
#[test]
fn then_a_sum_that_is_a_nan() {
    for bits in WIDTHS {
        for dims in [1u32, 2, 3, 9] {
            let n = (dims as usize) << bits;
            let code = vec![0; size_of(dims, bits)];
            for metric in [1, 2] {
                for i in 0..dims as usize {
                    for nan in NANS {
                        let mut table = vec![1.0; n];
                        table[i << bits] = nan;
                        assert_eq!(try_distance(metric, dims, bits, &of_floats(&table), &code, 4), 8);
                        table[i << bits] = 1.0;
                        table[(i << bits) + 1] = nan;
                        assert_eq!(try_distance(metric, dims, bits, &of_floats(&table), &code, 4), 0);
                    }
                }
                if dims > 1 {
                    let mut table = vec![0.0; n];
                    (table[0], table[1 << bits]) = (f32::INFINITY, f32::NEG_INFINITY);
                    assert_eq!(try_distance(metric, dims, bits, &of_floats(&table), &code, 4), 8);
                }
            }
        }
    }
}

/// At width 8 a table has 67 MB, so each is written once and read once.
#[test]
fn the_most_dims() {
    let (dims, n) = (65_535, 65_535);
    let mut rng = Rng::new(3);
    let (v, a, b) = (of_floats(&rng.mild_floats(n)), of_floats(&vec![-1.0; n]), of_floats(&vec![1.0; n]));
    for bits in WIDTHS {
        assert_eq!(try_encode(dims, bits, &v, &a, &b, size_of(dims, bits)), 0);
        let code = rng.bytes(size_of(dims, bits));
        for metric in [1, 2] {
            let old = vec![0xEE; (4 * n) << bits];
            let mut table = old.clone();
            let number = scalar::table(metric, dims, bits, &v, &a, &b, &mut table);
            let want = paper::scalar::table(metric, dims, bits, &v, &a, &b, &old);
            assert!((number, &table) == (0, &want.1), "the table of metric {metric}, width {bits}");
            assert_eq!(try_distance(metric, dims, bits, &table, &code, 4), 0);
        }
    }
}

#[test]
fn null_and_lengths_past_32_bits() {
    let four = of_floats(&[1.0]);
    let mut out = [0xEE; 8];
    let far = 1usize << 32;
    unsafe {
        let (f, o) = (four.as_ptr(), out.as_mut_ptr());
        assert_eq!(sys::lk_scalar_encode(1, 8, null(), 0, null(), 0, null(), 0, null_mut(), 0), 3);
        assert_eq!(sys::lk_scalar_encode(0, 8, null(), 0, null(), 0, null(), 0, null_mut(), 0), 1);
        assert_eq!(sys::lk_scalar_table(1, 1, 1, null(), 0, null(), 0, null(), 0, null_mut(), 0), 3);
        assert_eq!(sys::lk_scalar_distance(1, 1, 1, null(), 0, null(), 0, null_mut(), 0), 3);
        assert_eq!(sys::lk_scalar_encode(1, 8, f, far + 4, f, 4, f, 4, o, 1), 3);
        assert_eq!(sys::lk_scalar_encode(1, 8, f, 4, f, far + 4, f, 4, o, 1), 3);
        assert_eq!(sys::lk_scalar_encode(1, 8, f, 4, f, 4, f, far + 4, o, 1), 3);
        assert_eq!(sys::lk_scalar_encode(1, 8, f, 4, f, 4, f, 4, o, far + 1), 3);
        assert_eq!(sys::lk_scalar_table(1, 1, 1, f, far + 4, f, 4, f, 4, o, 8), 3);
        assert_eq!(sys::lk_scalar_table(1, 1, 1, f, 4, f, far + 4, f, 4, o, 8), 3);
        assert_eq!(sys::lk_scalar_table(1, 1, 1, f, 4, f, 4, f, far + 4, o, 8), 3);
        assert_eq!(sys::lk_scalar_table(1, 1, 1, f, 4, f, 4, f, 4, o, far + 8), 3);
        assert_eq!(sys::lk_scalar_distance(1, 1, 1, f, far + 8, f, 1, o, 4), 3);
        assert_eq!(sys::lk_scalar_distance(1, 1, 1, f, 8, f, far + 1, o, 4), 3);
        assert_eq!(sys::lk_scalar_distance(1, 1, 1, f, 8, f, 1, o, far + 4), 3);
    }
    assert_eq!(out, [0xEE; 8]);
}
