//! Module 8, and searches: walks with the reranker after them.

use super::{block_forms, heading, print_row, single_forms, Clock, Form, DIMS};
use crate::paper::estimate::Query;
use crate::paper::walk::Walk;
use crate::paper::{block, code};
use crate::rng::Rng;
use crate::rust::{self, Aligned};
use crate::upstream::base::{AlwaysEqual, Distance, RerankerPop, VectL2};
use crate::upstream::detect::{levels, with, Level};
use crate::upstream::fast_scan::b4;
use crate::upstream::rabitq::{self, FlatRerankVec, RabitqQuantizer};
use crate::upstream::reranker::error::ErrorFlatReranker;
use crate::{bytes, rerank, walk};
use std::cell::Cell;
use std::hint::black_box;
use std::time::Instant;

/// Records of one layout, as we have them and as the Rust has them.
struct Records {
    dims: u32,
    layout: u32,
    ours: Vec<u8>,
    theirs: Aligned,
    codes: Vec<u8>,
}

impl Records {
    fn new(rng: &mut Rng, dims: u32, layout: u32, n: usize) -> Records {
        let codes = (0..dims).map(|_| (rng.word() % 16) as u8).collect();
        let mut ours = Vec::new();
        if layout == 1 {
            for _ in 0..n {
                ours.extend(bytes::of_floats(&[rng.mild().abs() * 9.0, rng.mild(), -0.1, 0.1]));
                ours.extend(rng.bytes(code::size_of(dims) - 16));
            }
            return Records { dims, layout, theirs: Aligned::new(&ours), ours, codes };
        }
        let mut theirs = Vec::new();
        for _ in 0..n.div_ceil(32) {
            let mut one = rng.bytes(block::size_of(dims));
            for lane in 0..32 {
                for (f, x) in [rng.mild().abs() * 9.0, rng.mild(), -0.1, 0.1].iter().enumerate() {
                    one[block::factor(f, lane)].copy_from_slice(&x.to_le_bytes());
                }
            }
            theirs.extend(rust::theirs(&one));
            ours.extend(one);
        }
        Records { dims, layout, ours, theirs: Aligned::new(&theirs), codes }
    }

    fn query(&self) -> Query<'_> {
        Query { metric: 1, dims: self.dims, dis_v_2: 2.0, b: 0.5, k: 0.01, codes: &self.codes }
    }

    fn walk(&self, n: u32, start: u32, end: u32) -> Walk<'_> {
        Walk { query: self.query(), layout: self.layout, records: &self.ours, n, start, end }
    }

    /// The Rust's walk, its table or planes made at its start.
    fn rust_walk(&self, start: u32, end: u32, heap: &mut FlatRerankVec) {
        let (single, blocks) = (code::size_of(self.dims), block::size_of(self.dims));
        let frlut = if self.layout == 2 { Ok(rust::flut(self.query())) } else { Err(rust::lut(self.query())) };
        let records = self.theirs.as_ref();
        RabitqQuantizer::<VectL2>::new(self.dims).flat_rerank_continue(
            |id| &records[id as usize * single..][..single],
            |id| &records[id as usize * blocks..][..blocks],
            &frlut,
            start..end,
            heap,
        );
    }
}

/// The lists that a walk writes.
struct Lists {
    ids: Vec<u8>,
    bounds: Vec<u8>,
    marks: Vec<u8>,
    count: [u8; 4],
}

impl Lists {
    fn new() -> Lists {
        Lists { ids: vec![0; 16_384], bounds: vec![0; 16_384], marks: vec![0; 4_096], count: [0; 4] }
    }

    fn walk(&mut self, w: Walk) {
        let places = (w.end - w.start) as usize;
        let (ids, bounds) = (&mut self.ids[..4 * places], &mut self.bounds[..4 * places]);
        assert_eq!(walk::walk(w, ids, bounds, &mut self.marks[..places], &mut self.count), 0);
    }
}

pub fn run(clock: &Clock) {
    let mut rng = Rng::new(1);
    heading("walks over 4,096 ids");
    let mut each = Vec::new();
    for layout in [2, 1] {
        for dims in DIMS {
            let records = Records::new(&mut rng, dims, layout, 4_096);
            let forms = if layout == 2 { block_forms() } else { single_forms() };
            let (mut lists, mut half) = (Lists::new(), Lists::new());
            let mut race = vec![
                Form::new("ours", || lists.walk(records.walk(4_096, 0, 4_096))),
                Form::new("half", || half.walk(records.walk(4_096, 0, 2_048))),
            ];
            for (level, name) in &forms {
                let records = &records;
                for (name, end) in [(*name, 4_096), ("half", 2_048)] {
                    race.push(Form::at(*level, name, move || {
                        let mut heap = Vec::with_capacity(4_096);
                        records.rust_walk(0, end, &mut heap);
                        heap
                    }));
                }
            }
            let nanos = clock.race(&mut race);
            let names: Vec<&str> = std::iter::once("ours").chain(forms.iter().map(|form| form.1)).collect();
            let whole: Vec<f64> = nanos.iter().step_by(2).copied().collect();
            let what = if layout == 2 { "blocks" } else { "single codes" };
            let asked: &[(&str, f64)] = match (layout, dims) {
                (2, 128 | 1_024) => &[("portable", 0.20), ("SSSE3", 2.7)],
                (1, 128 | 1_024) => &[("portable", 1.3)],
                _ => &[],
            };
            print_row(&format!("{what}, {dims} dims"), &names, &whole, asked);
            // What a record more takes: the difference of 4,096 ids and 2,048.
            let more = nanos.chunks(2).map(|two| (two[0] - two[1]) / records_more(layout)).collect::<Vec<_>>();
            each.push((layout, dims, names.iter().map(|name| name.to_string()).collect::<Vec<_>>(), more));
        }
    }

    heading("a block or a single code more, from walks");
    for (layout, dims, names, more) in &each {
        let what = if *layout == 2 { "block of 32 lower bounds" } else { "lower bound of a single code" };
        let names: Vec<&str> = names.iter().map(|name| name.as_str()).collect();
        print_row(&format!("{what}, {dims} dims"), &names, more, &[]);
    }

    sums_alone(clock, &mut rng, &each);
    grow(&mut rng);
}

/// The sums alone, table or planes made. No call of ours is a sum alone, so both sides are differences: what the dims
/// take more than the fewest do (4 of a block, 64 of a single code), ours from walks, whose lower bounds take the same
/// time at any dims.
fn sums_alone(clock: &Clock, rng: &mut Rng, each: &[(u32, u32, Vec<String>, Vec<f64>)]) {
    heading("sums alone: dims past the first 4, or 64");
    for layout in [2, 1] {
        let fewest = if layout == 2 { 4 } else { 64 };
        let records = Records::new(rng, fewest, layout, 4_096);
        let (mut lists, mut half) = (Lists::new(), Lists::new());
        let nanos = clock.race(&mut [
            Form::new("ours", || lists.walk(records.walk(4_096, 0, 4_096))),
            Form::new("half", || half.walk(records.walk(4_096, 0, 2_048))),
        ]);
        let first = (nanos[0] - nanos[1]) / records_more(layout);
        let (forms, asked) = if layout == 2 {
            (block_forms(), &[("portable", 0.17), ("SSSE3", 2.6)][..])
        } else {
            (single_forms(), &[("portable", 1.1)][..])
        };
        let theirs_first = rust_sums(clock, rng, layout, fewest, &forms);
        for (_, dims, _, more) in each.iter().filter(|row| row.0 == layout) {
            let theirs = rust_sums(clock, rng, layout, *dims, &forms);
            let names: Vec<&str> = std::iter::once("ours").chain(forms.iter().map(|form| form.1)).collect();
            let past = theirs.iter().zip(&theirs_first).map(|(whole, first)| whole - first);
            let nanos: Vec<f64> = std::iter::once(more[0] - first).chain(past).collect();
            let what = if layout == 2 { "block" } else { "single code" };
            print_row(&format!("{what}, {dims} dims"), &names, &nanos, asked);
        }
    }
}

/// The Rust's sum of a block or of a single code, in each of its forms.
fn rust_sums(clock: &Clock, rng: &mut Rng, layout: u32, dims: u32, forms: &[(Level, &str)]) -> Vec<f64> {
    let codes: Vec<u8> = (0..dims).map(|_| (rng.word() % 16) as u8).collect();
    let (lut, planes) = (rabitq::gen(codes.clone()), rabitq::binarize(&codes));
    let nibbles = rng.bytes(16 * dims.div_ceil(4) as usize);
    let words: Vec<u64> = (0..dims.div_ceil(64)).map(|_| rng.word()).collect();
    let mut race = Vec::new();
    for (level, name) in forms {
        race.push(match layout {
            2 => Form::at(*level, name, || b4::fast_scan_b4(dims.div_ceil(4), &nibbles, &lut)[0]),
            _ => Form::at(*level, name, || rabitq::asymmetric_binary_dot_product(&words, &planes)),
        });
    }
    clock.race(&mut race)
}

/// How many records more 4,096 ids are than 2,048.
fn records_more(layout: u32) -> f64 {
    if layout == 2 {
        64.0
    } else {
        2_048.0
    }
}

/// The least of a few runs, in nanoseconds.
fn least(runs: usize, mut f: impl FnMut()) -> f64 {
    let time = |f: &mut dyn FnMut()| {
        let began = Instant::now();
        f();
        began.elapsed().as_nanos() as f64
    };
    (0..runs).map(|_| time(&mut f)).fold(f64::MAX, f64::min)
}

/// How walks and searches grow with the number of records: 128 dims, windows of 4,096 ids. A search hands out the ten
/// nearest of all: it walks a window, reranks it with the ten best so far until ten are handed out, and goes on.
fn grow(rng: &mut Rng) {
    let best = *levels().last().unwrap();
    let sizes = [1_024u32, 4_096, 16_384, 65_536, 262_144, 1_048_576];
    for (layout, what) in [(2, "blocks"), (1, "single codes")] {
        let records = Records::new(rng, 128, layout, sizes[sizes.len() - 1] as usize);
        println!(
            "\n{what}, 128 dims: ns for each record{:>9}{:>16}{:>16}{:>16}{:>16}{:>16}",
            "walk", "Rust portable", "Rust best", "ten nearest", "Rust portable", "distances read"
        );
        for n in sizes {
            let whole = records.ours.len();
            let part = crate::paper::walk::records_len(layout, 128, n);
            let records = Part { records: &records, bytes: part.min(whole), n };
            let runs = if n > 100_000 { 3 } else { 15 };
            let mut lists = Lists::new();
            let ours = least(runs, || records.windows(|w| lists.walk(w)));
            let rust = |level| {
                with(level, || {
                    least(runs, || {
                        let mut heap = Vec::with_capacity(n as usize);
                        records.records.rust_walk(0, n, &mut heap);
                        black_box(heap);
                    })
                })
            };
            let (portable, fastest) = (rust(levels()[0]), rust(best));
            let read = Cell::new(0);
            let search = least(runs, || read.set(records.ten_nearest()));
            let rust_search = with(levels()[0], || {
                least(runs, || {
                    let mut heap = Vec::with_capacity(n as usize);
                    records.records.rust_walk(0, n, &mut heap);
                    let exact: Vec<f32> =
                        heap.iter().map(|(bound, AlwaysEqual(id))| exact(bound.0.to_f32(), *id)).collect();
                    let mut reranker = ErrorFlatReranker::new(heap, |id| (Distance::from_f32(exact[id as usize]), ()));
                    for _ in 0..10 {
                        black_box(reranker.pop());
                    }
                })
            });
            let each = f64::from(n);
            println!(
                "{:<38}{:>8.2}{:>16.2}{:>16.2}{:>16.2}{:>16.2}{:>16}",
                format!("{n} records"),
                ours / each,
                portable / each,
                fastest / each,
                search / each,
                rust_search / each,
                read.get()
            );
        }
    }
}

/// An exact distance that is not below its bound.
fn exact(bound: f32, id: u32) -> f32 {
    bound + (id.wrapping_mul(0x9E37_79B1) >> 24) as f32 / 64.0
}

/// The first n of the records.
struct Part<'a> {
    records: &'a Records,
    bytes: usize,
    n: u32,
}

impl Part<'_> {
    fn windows(&self, mut f: impl FnMut(Walk)) {
        for start in (0..self.n).step_by(4_096) {
            let w = self.records.walk(self.n, start, (start + 4_096).min(self.n));
            f(Walk { records: &self.records.ours[..self.bytes], ..w });
        }
    }

    /// Finds the ten nearest and returns how many exact distances it read.
    fn ten_nearest(&self) -> usize {
        let (mut lists, mut read) = (Lists::new(), 0);
        let mut nearest: Vec<(f32, u32)> = Vec::new();
        let (mut distances, mut out, mut four) = (vec![0; 16_384], [0; 16], [0; 4]);
        self.windows(|w| {
            lists.walk(w);
            let places = (w.end - w.start) as usize;
            let (estimates, distances) = (&lists.bounds[..4 * places], &mut distances[..4 * places]);
            let marks = &mut lists.marks[..places];
            let mut given = 0;
            while given < 10 {
                assert_eq!(rerank::next(estimates, distances, marks, &mut out), 0);
                let (answer, place) = (out[0], u32::from_le_bytes(out[4..8].try_into().unwrap()));
                match answer {
                    0 => break,
                    1 => {
                        let at = 4 * place as usize;
                        let bound = f32::from_le_bytes(estimates[at..at + 4].try_into().unwrap());
                        // Nothing that is left in this window can be among the ten nearest.
                        if nearest.len() == 10 && bound >= nearest[9].0 {
                            break;
                        }
                        let distance = exact(bound, w.start + place);
                        assert_eq!(rerank::supply(estimates, distances, marks, place, distance, &mut four), 0);
                        read += 1;
                    }
                    _ => {
                        let distance = f32::from_le_bytes(out[8..12].try_into().unwrap());
                        given += 1;
                        nearest.push((distance, w.start + place));
                    }
                }
            }
            nearest.sort_by(|x, y| x.0.total_cmp(&y.0));
            nearest.truncate(10);
        });
        black_box(nearest);
        read
    }
}
