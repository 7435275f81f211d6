//! Module 2. `process` takes only dims that divide by the codes in a byte, so distances have 4,368 in the place of
//! 4,369.
//!
//! The Rust's text is compiled for each width on its own. Plain loops that have the width as a number stand beside it.

use super::{heading, Clock, Form, DIMS};
use crate::rng::Rng;
use crate::upstream::base::{VectDot, VectL2};
use crate::upstream::scalar::{OperatorScalarQuantization, ScalarQuantizer};
use crate::{bytes, scalar};
use std::hint::black_box;

#[inline(never)]
fn plain_table(metric: u32, bits: u32, vector: &[f32], min: &[f32], max: &[f32], table: &mut [f32]) {
    for i in 0..vector.len() {
        let del = (max[i] - min[i]) / ((1 << bits) - 1) as f32;
        for j in 0..1usize << bits {
            let (x, y) = (vector[i], min[i] + j as f32 * del);
            table[(i << bits) + j] = if metric == 1 { (x - y) * (x - y) } else { x * y };
        }
    }
}

#[inline(never)]
fn plain_distance(dims: usize, bits: u32, table: &[f32], code: &[u8]) -> f32 {
    let in_a_byte = 8 / bits as usize;
    let mut sum = 0.0;
    for i in 0..dims {
        let j = (code[i / in_a_byte] >> (i % in_a_byte * bits as usize)) as usize % (1 << bits);
        sum += table[(i << bits) + j];
    }
    sum
}

pub fn run(clock: &Clock) {
    let mut rng = Rng::new(1);
    for what in ["encode", "table", "distance"] {
        heading(&format!("scalar quantizer: {what}"));
        for bits in [1, 2, 4, 8] {
            for dims in DIMS {
                let dims = if what == "distance" { dims / 8 * 8 } else { dims };
                let n = dims as usize;
                let vector = rng.mild_floats(n);
                let min: Vec<f32> = rng.mild_floats(n).iter().map(|x| x.abs() - 1.0).collect();
                let max: Vec<f32> = rng.mild_floats(n).iter().map(|x| x.abs()).collect();
                let [v, lo, hi] = [&vector, &min, &max].map(|list| bytes::of_floats(list));
                let quantizer = ScalarQuantizer { dims, bits, min: min.clone(), max: max.clone() };
                let row = |metric: &str| format!("{what}{metric}, width {bits}, {dims} dims");
                let mut code = vec![0; quantizer.code_size() as usize];
                match what {
                    "encode" => {
                        clock.row(
                            &row(""),
                            if dims == 1_024 { &[("portable", 0.5)] } else { &[] },
                            vec![
                                Form::new("ours", || scalar::encode(dims, bits, &v, &lo, &hi, &mut code)),
                                Form::new("portable", || quantizer.encode(&vector)),
                            ],
                        );
                    }
                    "table" => {
                        for metric in [1, 2] {
                            let (mut table, mut plain) = (vec![0; (4 * n) << bits], vec![0.0; n << bits]);
                            let theirs = || match metric {
                                1 => VectL2::preprocess(dims, bits, &min, &max, &vector),
                                _ => VectDot::preprocess(dims, bits, &min, &max, &vector),
                            };
                            clock.row(
                                &row([" L2", " dot"][metric as usize - 1]),
                                if dims == 1_024 { &[("portable", 0.6)] } else { &[] },
                                vec![
                                    Form::new("ours", || scalar::table(metric, dims, bits, &v, &lo, &hi, &mut table)),
                                    Form::new("portable", theirs),
                                    Form::new("plain loop", || {
                                        plain_table(metric, black_box(bits), &vector, &min, &max, &mut plain)
                                    }),
                                ],
                            );
                        }
                    }
                    _ => {
                        let lut = VectL2::preprocess(dims, bits, &min, &max, &vector);
                        let table = bytes::of_floats(&lut);
                        let code = quantizer.encode(&vector);
                        let mut out = [0; 4];
                        let most = [("portable", if bits == 8 { 1.3 } else { 1.15 })];
                        clock.row(
                            &row(""),
                            if dims == 1_024 { &most } else { &[] },
                            vec![
                                Form::new("ours", || scalar::distance(1, dims, bits, &table, &code, &mut out)),
                                Form::new("portable", || {
                                    <VectL2 as OperatorScalarQuantization>::process(dims, bits, &lut, &code)
                                }),
                                Form::new("plain loop", || plain_distance(n, black_box(bits), &lut, &code)),
                            ],
                        );
                    }
                }
            }
        }
    }
}
