//! Module 8.

use harness::bytes::of_floats;
use harness::paper::estimate::Query;
use harness::paper::walk::Walk;
use harness::upstream::base::VectL2;
use harness::upstream::rabitq::{divide, RabitqQuantizer};
use harness::{rust, walk};
use std::cell::Cell;

const QUERY: Query = Query { metric: 1, dims: 1, dis_v_2: 0.0, b: 0.0, k: 0.0, codes: &[0] };

/// An empty range has the Rust read a block, because `divide` names one. Here none is read, so there need not be one.
#[test]
fn an_empty_range_reads_a_block() {
    assert_eq!(divide(0..0), (Some(0), 0..0, None));
    let (reads, mut heap) = (Cell::new(0), Vec::new());
    let read = |_| {
        reads.set(reads.get() + 1);
        rust::Aligned::new(&[0; 528])
    };
    RabitqQuantizer::<VectL2>::new(1).flat_rerank_continue(read, read, &Ok(rust::flut(QUERY)), 0..0, &mut heap);
    assert_eq!((reads.get(), heap.len()), (1, 0));
    let mut count = [0xEE; 4];
    let w = Walk { query: QUERY, layout: 2, records: &[], n: 0, start: 0, end: 0 };
    assert_eq!(walk::walk(w, &mut [], &mut [], &mut [], &mut count), 0);
    assert_eq!(count, [0; 4]);
}

/// A NaN bound is handed out there. Here the walk is refused and nothing is written.
#[test]
fn a_bound_that_is_a_nan() {
    let mut record = of_floats(&[f32::NAN, 0.0, 0.0, 0.0]);
    record.resize(24, 0);
    let w = Walk { query: QUERY, layout: 1, records: &record, n: 1, start: 0, end: 1 };
    let theirs = rust::walk(w);
    assert!(theirs.len() == 1 && theirs[0].1.is_nan());
    let (mut ids, mut bounds, mut marks, mut count) = ([0xEE; 4], [0xEE; 4], [0xEE], [0xEE; 4]);
    assert_eq!(walk::walk(w, &mut ids, &mut bounds, &mut marks, &mut count), 8);
    assert_eq!((ids, bounds, marks, count), ([0xEE; 4], [0xEE; 4], [0xEE], [0xEE; 4]));
}

/// The Rust does not know how many records there are; here they are at most 1,048,576, and the range ends among them.
#[test]
fn records_without_a_count() {
    let records = vec![0; 24 * 1_048_577];
    let last = Walk { query: QUERY, layout: 1, records: &records, n: 1_048_577, start: 1_048_576, end: 1_048_577 };
    assert_eq!(rust::walk(last), [(1_048_576, 0.0)]);
    let (mut ids, mut bounds, mut marks, mut count) = ([0xEE; 4], [0xEE; 4], [0xEE], [0xEE; 4]);
    assert_eq!(walk::walk(last, &mut ids, &mut bounds, &mut marks, &mut count), 3);
    let past = Walk { records: &records[..24], n: 1, start: 1, end: 2, ..last };
    assert_eq!(walk::walk(past, &mut ids, &mut bounds, &mut marks, &mut count), 6);
    assert_eq!((ids, bounds, marks, count), ([0xEE; 4], [0xEE; 4], [0xEE], [0xEE; 4]));
}

/// A backwards range is silent on both sides: nothing is found.
#[test]
fn a_backwards_range_is_empty_on_both_sides() {
    let records = [0; 528];
    let w = Walk { query: QUERY, layout: 2, records: &records, n: 1, start: 1, end: 0 };
    assert_eq!(rust::walk(w), []);
    let mut count = [0xEE; 4];
    assert_eq!(walk::walk(w, &mut [], &mut [], &mut [], &mut count), 0);
    assert_eq!(count, [0; 4]);
}
