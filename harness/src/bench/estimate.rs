//! Module 7. A call makes the query's planes or table and then estimates one code or the lanes of a block. The Rust
//! does the same here; what an estimate takes once they are made is in the table of walks.

use super::{block_forms, heading, single_forms, Clock, Form, DIMS};
use crate::paper::estimate::{Asked, Query};
use crate::paper::{block, code};
use crate::rng::Rng;
use crate::{bytes, estimate, rust};

pub fn run(clock: &Clock) {
    heading("lower bounds: a whole call");
    let mut rng = Rng::new(1);
    for dims in DIMS {
        let codes: Vec<u8> = (0..dims).map(|_| (rng.word() % 16) as u8).collect();
        let query = Query { metric: 1, dims, dis_v_2: 2.0, b: 0.5, k: 0.25, codes: &codes };
        let mut single = bytes::of_floats(&[1.0, 0.5, -0.5, 0.25]);
        single.extend(rng.bytes(code::size_of(dims) - 16));
        let packed = block::packed(dims, &single.repeat(32));
        let mut out = [0; 4];
        let mut forms = vec![Form::new("ours", || estimate::code(query, Asked::LowerBound, &single, &mut out))];
        for (level, name) in single_forms() {
            forms.push(Form::at(level, name, || rust::estimate_code(query, Asked::LowerBound, &single)));
        }
        clock.row(&format!("code, {dims} dims"), &[], forms);
        let mut out = [0; 128];
        let mut forms = vec![Form::new("ours", || estimate::block(query, Asked::LowerBound, &packed, &mut out))];
        for (level, name) in block_forms() {
            forms.push(Form::at(level, name, || rust::estimate_block(query, Asked::LowerBound, &packed)));
        }
        clock.row(&format!("block, {dims} dims"), &[], forms);
    }
}
