//! Module 3.

use super::{heading, Clock, Form};
use crate::root;
use std::hint::black_box;

pub fn run(clock: &Clock) {
    heading("square root (asked for: at most 20 ns)");
    for x in [2.0, 1e-40] {
        let mut out = [0; 4];
        clock.row(
            &format!("root of {x:e}"),
            &[],
            vec![
                Form::new("ours", || root::root(black_box(x), &mut out)),
                Form::new("hardware", || black_box(x).sqrt()),
            ],
        );
    }
}
