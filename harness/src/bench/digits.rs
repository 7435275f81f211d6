//! Module 1.

use super::{heading, Clock, Form, DIMS};
use crate::digits;
use crate::rng::Rng;
use crate::upstream::utils::{merge_2, merge_4, merge_8, InfiniteByteChunks};

pub fn run(clock: &Clock) {
    heading("digits");
    let mut rng = Rng::new(1);
    for bits in [1, 2, 4, 8] {
        for dims in DIMS {
            let codes: Vec<u8> = (0..dims).map(|_| (rng.word() % (1 << bits)) as u8).collect();
            let size = (dims * bits).div_ceil(8) as usize;
            let mut packed = vec![0; size];
            let theirs = || -> Vec<u8> {
                let chunks = codes.clone().into_iter();
                match bits {
                    1 => InfiniteByteChunks::new(chunks).map(merge_8).take(size).collect(),
                    2 => InfiniteByteChunks::new(chunks).map(merge_4).take(size).collect(),
                    4 => InfiniteByteChunks::new(chunks).map(merge_2).take(size).collect(),
                    _ => codes.clone(),
                }
            };
            clock.row(
                &format!("pack, width {bits}, {dims} dims"),
                &[],
                vec![
                    Form::new("ours", || digits::pack(dims, bits, &codes, &mut packed)),
                    Form::new("portable", theirs),
                ],
            );
        }
    }
}
