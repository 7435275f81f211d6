//! Module 2.

use super::digits::shape;
use super::{if_accepted, one, Call, Run};
use crate::draw::Mood;
use crate::paper::digits::{digit, packed, size_of, top};
use crate::refusal::*;
use crate::{bytes, paper::scalar as paper, rust, scalar};

pub const CALLS: &[Call] = &[
    Call {
        name: "lk_scalar_encode",
        numbers: &[ACCEPTED, BAD_DIMS, BAD_WIDTH, BAD_LENGTH, MISSING, BAD_VALUE],
        slips: &[
            "halves-upward",
            "halves-upward-at-width-8",
            "nan-gives-top",
            "negatives-wrap",
            "last-column-left-out",
            "min-above-max-accepted",
            "missing-gives-0",
        ],
        go: encode,
        weight: 4,
    },
    Call {
        name: "lk_scalar_table",
        numbers: &[ACCEPTED, BAD_DIMS, BAD_WIDTH, BAD_LENGTH, MISSING, BAD_VALUE],
        slips: &["entry-0-is-min", "top-entry-is-max", "fused", "metrics-exchanged", "payload-of-a-nan"],
        go: table,
        weight: 3,
    },
    Call {
        name: "lk_scalar_distance",
        numbers: &[ACCEPTED, BAD_DIMS, BAD_WIDTH, BAD_LENGTH, BAD_VALUE, NO_ESTIMATE],
        slips: &[
            "from-the-right",
            "from-negative-zero",
            "last-entry-left-out",
            "dot-subtracted-from-0",
            "nan-handed-out",
            "wide-sum",
        ],
        go: distance,
        weight: 3,
    },
];

struct Columns {
    vector: Vec<u8>,
    min: Vec<u8>,
    max: Vec<u8>,
}

/// A vector with the least and the greatest of each column, damaged here and there.
fn columns(run: &mut Run, mood: &Mood, dims: u32, bits: u32) -> Columns {
    let n = if paper::bad(dims, bits) { dims.min(40) as usize } else { dims as usize };
    let rng = &mut run.rng;
    let kind = rng.below(5);
    let (mut vector, mut min, mut max) = (Vec::new(), Vec::new(), Vec::new());
    for _ in 0..n {
        // Mostly a value between the least and the greatest; often at a half between two codes.
        let (a, b, x) = match kind {
            0 => {
                let (a, steps) = (rng.below(9) as f32 - 4.0, top(if paper::bad(1, bits) { 4 } else { bits }) as f32);
                (a, a + steps, a + rng.below(2 * steps as usize + 9) as f32 / 2.0 - 2.0)
            }
            1 => (rng.finite(), rng.finite(), rng.finite()),
            2 => {
                let a = rng.finite();
                (a, a, if rng.once_in(3) { a } else { rng.finite() })
            }
            _ => (rng.mild(), rng.mild(), rng.mild()),
        };
        vector.push(x);
        min.push(if a < b { a } else { b });
        max.push(if a < b { b } else { a });
    }
    if n > 0 && mood.hurt(rng) {
        let at = rng.below(n);
        std::mem::swap(&mut min[at], &mut max[at]);
    }
    if n > 0 && mood.hurt(rng) {
        let at = rng.below(n);
        let list = rng.below(3);
        [&mut vector, &mut min, &mut max][list][at] = rng.pick(&crate::draw::NOT_FINITE);
    }
    let [vector, min, max] = [vector, min, max].map(|floats| {
        let mut bytes = bytes::of_floats(&floats);
        let len = mood.length(rng, bytes.len());
        bytes.resize(len, 0);
        bytes
    });
    Columns { vector, min, max }
}

fn encode(run: &mut Run) {
    let mood = Mood::new(&mut run.rng);
    let (dims, bits, size) = shape(run, &mood);
    let Columns { vector, min, max } = columns(run, &mood, dims, bits);
    let len = mood.length(&mut run.rng, size);
    let olds = [run.rng.bytes(len)];
    let want = one(paper::encode(dims, bits, &vector, &min, &max, &olds[0]));
    let number = want.0;
    let floats = || (bytes::floats(&vector), bytes::floats(&min), bytes::floats(&max));
    let by = |code: &dyn Fn(f32) -> u32| {
        let (x, min, max) = floats();
        let codes = (0..dims as usize).map(|i| code((x[i] - min[i]) / paper::del(bits, min[i], max[i])) as u8);
        vec![packed(bits, &codes.collect::<Vec<_>>())]
    };
    run.hold(
        || format!("dims {dims}, bits {bits}, vector {:?}, min {:?}, max {:?}", floats().0, floats().1, floats().2),
        &olds,
        |lent| scalar::encode(dims, bits, &vector, &min, &max, lent[0]),
        want.clone(),
        || {
            let (x, min, max) = floats();
            (number == ACCEPTED).then(|| (ACCEPTED, vec![rust::scalar_encode(dims, bits, &x, &min, &max)]))
        },
        |slip| {
            let top = if number == ACCEPTED { top(bits) } else { 0 };
            let upward = |q: f32| ((q + 0.5).floor().max(0.0) as u32).min(top);
            match slip {
                "halves-upward" => if_accepted(number, &olds, || by(&upward)),
                "halves-upward-at-width-8" if bits == 8 => if_accepted(number, &olds, || by(&upward)),
                "last-column-left-out" => if_accepted(number, &olds, || {
                    let mut codes: Vec<u8> = (0..dims as usize).map(|i| digit(bits, &want.1[0], i) as u8).collect();
                    *codes.last_mut().unwrap() = 0;
                    vec![packed(bits, &codes)]
                }),
                "nan-gives-top" => {
                    let code = |q: f32| if q.is_nan() { top } else { paper::rounded(q, top) };
                    if_accepted(number, &olds, || by(&code))
                }
                "negatives-wrap" => {
                    let code = |q: f32| if q <= -1.0 { top } else { paper::rounded(q, top) };
                    if_accepted(number, &olds, || by(&code))
                }
                "min-above-max-accepted" if number == BAD_VALUE => {
                    (ACCEPTED, vec![rust::scalar_encode(dims, bits, &floats().0, &floats().1, &floats().2)])
                }
                "missing-gives-0" if number == MISSING => {
                    (ACCEPTED, vec![rust::scalar_encode(dims, bits, &floats().0, &floats().1, &floats().2)])
                }
                _ => want,
            }
        },
    );
}

fn table(run: &mut Run) {
    let mood = Mood::new(&mut run.rng);
    let (dims, bits, _) = shape(run, &mood);
    let dims = if (1..=65_535).contains(&dims) && bits > 2 { 1 + dims % 40 } else { dims };
    let metric = run.rng.metric(&mood);
    let Columns { vector, min, max } = columns(run, &mood, dims, bits);
    let right = if paper::bad(dims, bits) { 64 } else { (4 * dims as usize) << bits };
    let len = mood.length(&mut run.rng, right);
    let olds = [run.rng.bytes(len)];
    let want = one(paper::table(metric, dims, bits, &vector, &min, &max, &olds[0]));
    let number = want.0;
    let floats = || (bytes::floats(&vector), bytes::floats(&min), bytes::floats(&max));
    let by = |entry: &dyn Fn(f32, f32, f32, u32) -> f32| {
        let (x, min, max) = floats();
        let places = (0..dims as usize).flat_map(|i| (0..=top(bits)).map(move |j| (i, j)));
        vec![bytes::of_worked_out(&places.map(|(i, j)| entry(x[i], min[i], max[i], j)).collect::<Vec<_>>())]
    };
    let value = move |x: f32, y: f32| if metric == 1 { (x - y) * (x - y) } else { x * y };
    run.hold(
        || format!("metric {metric}, dims {dims}, bits {bits}, {:?}", floats()),
        &olds,
        |lent| scalar::table(metric, dims, bits, &vector, &min, &max, lent[0]),
        want.clone(),
        || {
            let (x, min, max) = floats();
            let table = || bytes::of_worked_out(&rust::scalar_table(metric, dims, bits, &x, &min, &max));
            (number == ACCEPTED).then(|| (ACCEPTED, vec![table()]))
        },
        |slip| match slip {
            "entry-0-is-min" => if_accepted(number, &olds, || {
                by(&|x, min, max, j| {
                    if j == 0 {
                        value(x, min)
                    } else {
                        paper::entry(metric, bits, x, min, max, j)
                    }
                })
            }),
            "top-entry-is-max" => if_accepted(number, &olds, || {
                by(&|x, min, max, j| {
                    if j == top(bits) {
                        value(x, max)
                    } else {
                        paper::entry(metric, bits, x, min, max, j)
                    }
                })
            }),
            "fused" => if_accepted(number, &olds, || {
                by(&|x, min, max, j| value(x, (j as f32).mul_add(paper::del(bits, min, max), min)))
            }),
            "metrics-exchanged" => {
                if_accepted(number, &olds, || by(&|x, min, max, j| paper::entry(3 - metric, bits, x, min, max, j)))
            }
            _ => if_accepted(number, &olds, || {
                let words = bytes::words(&want.1[0]);
                vec![bytes::of_words(
                    &words.iter().map(|x| if *x == bytes::NAN { 0xFFC0_0000 } else { *x }).collect::<Vec<_>>(),
                )]
            }),
        },
    );
}

fn distance(run: &mut Run) {
    let mood = Mood::new(&mut run.rng);
    let (dims, bits, size) = shape(run, &mood);
    let (dims, size) = if (1..=65_535).contains(&dims) && bits == 8 && dims > 200 { (100, 100) } else { (dims, size) };
    let metric = run.rng.metric(&mood);
    let bad = paper::bad(dims, bits);
    let n = if bad { 16 } else { (dims as usize) << bits };
    let rng = &mut run.rng;
    let floats = match rng.below(6) {
        0 => rng.floats(n),
        1 => rng.finite_floats(n),
        2 => vec![-0.0; n],
        _ => rng.mild_floats(n),
    };
    let mut table = bytes::of_floats(&floats);
    let len = mood.length(rng, table.len());
    table.resize(len, 0);
    let len = mood.length(rng, size);
    let code = rng.bytes(len);
    let len = mood.length(rng, 4);
    let olds = [rng.bytes(len)];
    let want = one(paper::distance(metric, dims, bits, &table, &code, &olds[0]));
    let number = want.0;
    let entries = || -> Vec<f32> {
        let table = bytes::floats(&table);
        (0..dims as usize).map(|i| table[(i << bits) + digit(bits, &code, i) as usize]).collect()
    };
    let signed = |sum: f32| vec![bytes::of_floats(&[if metric == 1 { sum } else { -sum }])];
    run.hold(
        || format!("metric {metric}, dims {dims}, bits {bits}, table {:?}, code {code:02X?}", bytes::floats(&table)),
        &olds,
        |lent| scalar::distance(metric, dims, bits, &table, &code, lent[0]),
        want.clone(),
        || {
            if number != ACCEPTED && number != NO_ESTIMATE {
                return None;
            }
            let sum = rust::scalar_distance(metric, dims, bits, &bytes::floats(&table), &code)?;
            assert_eq!(size_of(dims, bits), code.len());
            Some(if sum.is_nan() { (NO_ESTIMATE, olds.to_vec()) } else { (ACCEPTED, vec![bytes::of_floats(&[sum])]) })
        },
        |slip| match slip {
            "from-the-right" => {
                if_accepted(number, &olds, || signed(entries().iter().rev().fold(0.0, |sum, x| sum + x)))
            }
            "from-negative-zero" => {
                if_accepted(number, &olds, || signed(entries().iter().fold(-0.0, |sum, x| sum + x)))
            }
            "last-entry-left-out" => if_accepted(number, &olds, || {
                let entries = entries();
                signed(entries[..entries.len() - 1].iter().fold(0.0, |sum, x| sum + x))
            }),
            "dot-subtracted-from-0" => if_accepted(number, &olds, || {
                let sum = entries().iter().fold(0.0, |sum, x| sum + x);
                vec![bytes::of_floats(&[if metric == 1 { sum } else { 0.0 - sum }])]
            }),
            "nan-handed-out" if number == NO_ESTIMATE => (ACCEPTED, vec![bytes::of_words(&[bytes::NAN])]),
            "wide-sum" => {
                if_accepted(number, &olds, || signed(entries().iter().fold(0.0, |sum, x| sum + f64::from(*x)) as f32))
            }
            _ => want,
        },
    );
}
