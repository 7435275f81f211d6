//! Module 6. A call makes the query's planes or table and then sums one code or block. The Rust does the same here;
//! what a sum takes once they are made is in the table of walks.

use super::{block_forms, heading, single_forms, Clock, Form, DIMS};
use crate::paper::{block, code};
use crate::rng::Rng;
use crate::{rust, sums};

pub fn run(clock: &Clock) {
    heading("sums: a whole call, planes or table made each time");
    let mut rng = Rng::new(1);
    for dims in DIMS {
        let query: Vec<u8> = (0..dims).map(|_| (rng.word() % 16) as u8).collect();
        let (single, packed) = (rng.bytes(code::size_of(dims)), rng.bytes(block::size_of(dims)));
        let mut out = [0; 128];
        let mut forms = vec![Form::new("ours", || sums::code(dims, &query, &single, &mut out[..4]))];
        for (level, name) in single_forms() {
            forms.push(Form::at(level, name, || rust::code_sum(&query, &single)));
        }
        clock.row(&format!("code, {dims} dims"), &[], forms);
        let mut out = [0; 128];
        let mut forms = vec![Form::new("ours", || sums::block(dims, &query, &packed, &mut out))];
        for (level, name) in block_forms() {
            forms.push(Form::at(level, name, || rust::block_sums(&query, &packed)));
        }
        clock.row(&format!("block, {dims} dims"), &[], forms);
        let mut out = [0; 4];
        clock.row(
            &format!("query, {dims} dims"),
            &[],
            vec![
                Form::new("ours", || sums::query(dims, &query, &mut out)),
                Form::new("portable", || rust::query_sum(&query)),
            ],
        );
    }
}
