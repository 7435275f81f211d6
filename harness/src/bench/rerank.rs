//! Module 9. A call at 4,096 places is to take at most 1.35 of the time of the Rust's portable block sum at 1,024 dims.

use super::{heading, Clock, Form};
use crate::rng::Rng;
use crate::upstream::base::{AlwaysEqual, Distance, RerankerPop};
use crate::upstream::fast_scan::b4::fast_scan_b4::fast_scan_b4_fallback;
use crate::upstream::reranker::error::ErrorFlatReranker;
use crate::{bytes, rerank};
use std::cmp::Reverse;

/// A whole run by the Rust's two heaps, with nothing kept but the count.
fn rust_run(estimates: &[f32], distances: &[f32]) -> usize {
    let heap = estimates.iter().enumerate();
    let heap = heap.map(|(u, estimate)| (Reverse(Distance::from_f32(*estimate)), AlwaysEqual(u as u32))).collect();
    let mut reranker = ErrorFlatReranker::new(heap, |u| (Distance::from_f32(distances[u as usize]), ()));
    std::iter::from_fn(|| reranker.pop()).count()
}

/// A whole run by the calls.
fn our_run(estimates: &[u8], exact: &[f32], distances: &mut [u8], marks: &mut [u8]) -> usize {
    marks.fill(0);
    let (mut given, mut out, mut four) = (0, [0; 16], [0; 4]);
    loop {
        assert_eq!(rerank::next(estimates, distances, marks, &mut out), 0);
        let place = u32::from_le_bytes(out[4..8].try_into().unwrap());
        match out[0] {
            0 => return given,
            1 => {
                let distance = exact[place as usize];
                assert_eq!(rerank::supply(estimates, distances, marks, place, distance, &mut four), 0);
            }
            _ => given += 1,
        }
    }
}

pub fn run(clock: &Clock) {
    heading("reranker");
    let mut rng = Rng::new(1);
    let (nibbles, lut) = (rng.bytes(4_096), rng.bytes(4_096));
    for n in [64usize, 1_024, 4_096] {
        let estimates = rng.mild_floats(n);
        let exact: Vec<f32> = estimates.iter().map(|x| x + rng.mild().abs()).collect();
        let (e, d) = (bytes::of_floats(&estimates), bytes::of_floats(&exact));
        let asked: &[(&str, f64)] = if n == 4_096 { &[("block sum, 1,024 dims, portable", 1.35)] } else { &[] };
        for (what, mark) in [("waiting", 0), ("asked or waiting", 1)] {
            let fresh: Vec<u8> = (0..n).map(|i| if i % 2 == 0 { mark } else { 0 }).collect();
            let (mut marks, mut out) = (fresh.clone(), [0; 16]);
            clock.row(
                &format!("next, {n} places {what}"),
                asked,
                vec![
                    Form::new("ours", || rerank::next(&e, &d, &mut marks, &mut out)),
                    Form::new("block sum, 1,024 dims, portable", || fast_scan_b4_fallback(256, &nibbles, &lut)),
                ],
            );
        }
        let (mut distances, mut marks) = (d.clone(), vec![0; n]);
        clock.row(
            &format!("a whole run of {n} candidates"),
            &[],
            vec![
                Form::new("ours", || our_run(&e, &exact, &mut distances, &mut marks)),
                Form::new("two heaps", || rust_run(&estimates, &exact)),
            ],
        );
    }
}
