//! The Rust that is ported, called on the buffers that the C functions take.
//!
//! Its lane order in a block is not ours: byte j of a group has lanes LANES[j] and LANES[j] + 16 there, and lanes j and
//! j + 16 here. `theirs` and `ours` translate. It wants codes aligned to 8 bytes, blocks to 4.

use crate::paper::estimate::{Asked, Factors, Query};
use crate::paper::{self, block, code, walk::Walk};
use crate::upstream::base::{AlwaysEqual, Distance, RerankerPop, VectDot, VectL2};
use crate::upstream::fast_scan::b4;
use crate::upstream::quantize::reduce_sum_of_x_as_u16;
use crate::upstream::rabitq::{self, OperatorRabitqQuantization, RabitqQuantizer};
use crate::upstream::reranker::error::ErrorFlatReranker;
use crate::upstream::scalar::{OperatorScalarQuantization, ScalarQuantizer};
use std::cell::RefCell;
use std::cmp::Reverse;

pub const LANES: [usize; 16] = [0, 8, 1, 9, 2, 10, 3, 11, 4, 12, 5, 13, 6, 14, 7, 15];

/// Bytes at an address that divides by 8.
#[derive(Clone)]
pub struct Aligned {
    words: Vec<u64>,
    len: usize,
}

impl Aligned {
    pub fn new(bytes: &[u8]) -> Aligned {
        let mut words = vec![0u64; bytes.len().div_ceil(8)];
        for (word, eight) in words.iter_mut().zip(bytes.chunks(8)) {
            let mut all = [0; 8];
            all[..eight.len()].copy_from_slice(eight);
            *word = u64::from_ne_bytes(all);
        }
        Aligned { words, len: bytes.len() }
    }
}

impl AsRef<[u8]> for Aligned {
    fn as_ref(&self) -> &[u8] {
        unsafe { std::slice::from_raw_parts(self.words.as_ptr().cast(), self.len) }
    }
}

/// The nibbles of a block from our lane order into the Rust's.
pub fn nibbles_theirs(nibbles: &[u8]) -> Vec<u8> {
    nibbles.chunks(16).flat_map(|group| LANES.map(|j| group[j])).collect()
}

/// A block of ours as the Rust has it.
pub fn theirs(block: &[u8]) -> Vec<u8> {
    [&block[..512], &nibbles_theirs(&block[512..])].concat()
}

/// A block of the Rust's as we have it.
pub fn ours(block: &[u8]) -> Vec<u8> {
    let mut out = block.to_vec();
    for (group, from) in out[512..].chunks_mut(16).zip(block[512..].chunks(16)) {
        for j in 0..16 {
            group[LANES[j]] = from[j];
        }
    }
    out
}

// ---- scalar quantizer

pub fn digits_size(dims: u32, bits: u32) -> u32 {
    ScalarQuantizer { dims, bits, min: vec![], max: vec![] }.code_size()
}

pub fn scalar_encode(dims: u32, bits: u32, vector: &[f32], min: &[f32], max: &[f32]) -> Vec<u8> {
    ScalarQuantizer { dims, bits, min: min.to_vec(), max: max.to_vec() }.encode(vector)
}

pub fn scalar_table(metric: u32, dims: u32, bits: u32, vector: &[f32], min: &[f32], max: &[f32]) -> Vec<f32> {
    match metric {
        1 => VectL2::preprocess(dims, bits, min, max, vector),
        _ => VectDot::preprocess(dims, bits, min, max, vector),
    }
}

/// `process` takes only dims that divide by the codes in a byte. Other dims are filled up with entries of +0.0, which
/// change no sum that begins at +0.0. It takes no more than 65,535.
pub fn scalar_distance(metric: u32, dims: u32, bits: u32, table: &[f32], code: &[u8]) -> Option<f32> {
    let dims = dims.next_multiple_of(8 / bits);
    if dims > 65_535 {
        return None;
    }
    let mut table = table.to_vec();
    table.resize((dims as usize) << bits, 0.0);
    let distance = match metric {
        1 => <VectL2 as OperatorScalarQuantization>::process(dims, bits, &table, code),
        _ => <VectDot as OperatorScalarQuantization>::process(dims, bits, &table, code),
    };
    Some(distance.to_f32())
}

// ---- codes and blocks

/// What `code` returns but for the factors, which are handed in.
pub fn coded(factors: Factors, bits: Vec<u8>) -> (f32, f32, f32, f32, Vec<u8>) {
    let [dis_u_2, factor_ppc, factor_ip, factor_err] = factors;
    (dis_u_2, factor_ppc, factor_ip, factor_err, bits)
}

pub fn code_encode(dims: u32, factors: Factors, vector: &[f32]) -> Vec<u8> {
    let bits = vector.iter().map(|x| u8::from(x.is_sign_positive())).collect();
    RabitqQuantizer::<VectL2>::new(dims).encode(coded(factors, bits))
}

/// `fscan_encode` of the 32 codes' factors and bits, in our lane order.
pub fn block_pack(dims: u32, codes: &[u8]) -> Vec<u8> {
    let size = code::size_of(dims);
    let coded = std::array::from_fn(|lane| {
        let single = &codes[lane * size..(lane + 1) * size];
        let bits = (0..dims as usize).map(|i| u8::from(code::bit_at(single, i))).collect();
        coded(paper::estimate::factors_of_code(single), bits)
    });
    ours(&RabitqQuantizer::<VectL2>::new(dims).fscan_encode(coded))
}

// ---- sums

pub fn query_sum(query: &[u8]) -> u32 {
    u32::from(reduce_sum_of_x_as_u16(query))
}

pub fn code_sum(query: &[u8], code: &[u8]) -> u32 {
    let code = Aligned::new(code);
    rabitq::asymmetric_binary_dot_product(rabitq::parse_code(code.as_ref()).4, &rabitq::binarize(query))
}

pub fn block_sums(query: &[u8], block: &[u8]) -> [u32; 32] {
    let width = (query.len() as u32).div_ceil(4);
    b4::fast_scan_b4(width, &nibbles_theirs(&block[512..]), &rabitq::gen(query.to_vec())).map(u32::from)
}

// ---- estimates

pub type Planes = (Vec<u64>, Vec<u64>, Vec<u64>, Vec<u64>);
pub type Lut = (f32, f32, f32, f32, Planes);
pub type FLut = (f32, f32, f32, f32, Vec<u8>);

/// `preprocess` with the query record handed in.
pub fn lut(query: Query) -> Lut {
    (query.dis_v_2, query.b, query.k, query_sum(query.codes) as f32, rabitq::binarize(query.codes))
}

/// `fscan_preprocess` with the query record handed in.
pub fn flut(query: Query) -> FLut {
    (query.dis_v_2, query.b, query.k, query_sum(query.codes) as f32, rabitq::gen(query.codes.to_vec()))
}

fn code_estimate<O: OperatorRabitqQuantization<Lut = Lut>>(query: Query, asked: Asked, code: &[u8]) -> f32 {
    let code = Aligned::new(code);
    let code = rabitq::parse_code(code.as_ref());
    match asked {
        Asked::Rough => O::process(&lut(query), code),
        Asked::LowerBound => O::process_lowerbound(&lut(query), code, 1.9),
    }
    .to_f32()
}

pub fn estimate_code(query: Query, asked: Asked, code: &[u8]) -> f32 {
    match query.metric {
        1 => code_estimate::<VectL2>(query, asked, code),
        _ => code_estimate::<VectDot>(query, asked, code),
    }
}

fn block_estimates<O: OperatorRabitqQuantization<FLut = FLut>>(query: Query, asked: Asked, block: &[u8]) -> [f32; 32] {
    let block = Aligned::new(&theirs(block));
    let block = rabitq::parses_codes(block.as_ref());
    match asked {
        Asked::Rough => O::fscan_process(query.dims, &flut(query), block),
        Asked::LowerBound => O::fscan_process_lowerbound(query.dims, &flut(query), block, 1.9),
    }
    .map(|distance| distance.to_f32())
}

pub fn estimate_block(query: Query, asked: Asked, block: &[u8]) -> [f32; 32] {
    match query.metric {
        1 => block_estimates::<VectL2>(query, asked, block),
        _ => block_estimates::<VectDot>(query, asked, block),
    }
}

/// Whether the Rust's dot estimate, which takes its halves first, is ours, which takes them last. Halving is exact
/// unless it leaves the normal numbers or a product that is halved overflows. For L2 there are no halves.
pub fn halves_agree(query: Query, factors: Factors, sum: u32, asked: Asked) -> bool {
    let normal = |x: f32| x.is_finite() && x.abs() >= 2.0 * f32::MIN_POSITIVE;
    let chain = |numbers: &[f32]| {
        let mut products = (1..=numbers.len()).map(|n| numbers[..n].iter().product::<f32>());
        match numbers.contains(&0.0) {
            true => products.all(|x| x.is_finite()),
            false => products.all(normal),
        }
    };
    let [_, factor_ppc, factor_ip, factor_err] = factors;
    let difference = 2.0 * sum as f32 - paper::sums::of_query(query.codes) as f32;
    query.metric == 1
        || chain(&[query.b, factor_ppc])
            && chain(&[difference, factor_ip, query.k])
            && (asked == Asked::Rough || chain(&[factor_err, query.dis_v_2.sqrt()]))
}

// ---- walks

fn walk_as<O: OperatorRabitqQuantization<Lut = Lut, FLut = FLut>>(walk: Walk) -> Vec<(u32, f32)> {
    let dims = walk.query.dims;
    let (single, blocks) = (code::size_of(dims), block::size_of(dims));
    let mut heap = Vec::new();
    let frlut = if walk.layout == 2 { Ok(flut(walk.query)) } else { Err(lut(walk.query)) };
    RabitqQuantizer::<O>::new(dims).flat_rerank_continue(
        |id| Aligned::new(&walk.records[id as usize * single..][..single]),
        |id| Aligned::new(&theirs(&walk.records[id as usize * blocks..][..blocks])),
        &frlut,
        walk.start..walk.end,
        &mut heap,
    );
    heap.into_iter().map(|(Reverse(bound), AlwaysEqual(id))| (id, bound.to_f32())).collect()
}

/// The ids and their lower bounds, in the order that `flat_rerank_continue` pushes them. An empty range of blocks is
/// not for it: `divide` has it read a block that may not be there.
pub fn walk(walk: Walk) -> Vec<(u32, f32)> {
    match walk.query.metric {
        1 => walk_as::<VectL2>(walk),
        _ => walk_as::<VectDot>(walk),
    }
}

/// Whether ours can be compared with it, where we judge no more than the bounds: it takes the range, and for each id its
/// halves agree.
pub fn walk_agrees(walk: Walk) -> bool {
    let Walk { query, layout, records, start, end, .. } = walk;
    let (single, blocks) = (code::size_of(query.dims), block::size_of(query.dims));
    let halves = |id: usize| {
        let (factors, sum) = if layout == 1 {
            let code = &records[id * single..][..single];
            (paper::estimate::factors_of_code(code), paper::sums::of_code(query.codes, code))
        } else {
            let block = &records[id / 32 * blocks..][..blocks];
            (paper::estimate::factors_of_lane(block, id % 32), paper::sums::of_lane(query.codes, block, id % 32))
        };
        halves_agree(query, factors, sum, Asked::LowerBound)
    };
    (layout == 1 || start != end) && (start..end).all(|id| halves(id as usize))
}

// ---- searches

/// What a search does: it asks for a distance, or hands a place out.
#[derive(Debug, Clone, Copy, PartialEq)]
pub enum Event {
    Ask(u32),
    Give(u32, f32),
}

/// A whole search over these candidates by `ErrorFlatReranker`.
pub fn search(estimates: &[f32], distances: &[f32]) -> Vec<Event> {
    let heap = estimates.iter().enumerate();
    let heap = heap.map(|(u, estimate)| (Reverse(Distance::from_f32(*estimate)), AlwaysEqual(u as u32))).collect();
    let events = RefCell::new(Vec::new());
    let mut reranker = ErrorFlatReranker::new(heap, |u| {
        events.borrow_mut().push(Event::Ask(u));
        (Distance::from_f32(distances[u as usize]), ())
    });
    while let Some((distance, u, ())) = reranker.pop() {
        events.borrow_mut().push(Event::Give(u, distance.to_f32()));
    }
    drop(reranker);
    events.into_inner()
}

/// Whether two searches over the same candidates are the same up to ties.
///
/// The heaps order equal numbers as they please. Where all estimates differ and all distances differ, every event must
/// be the same. Otherwise, where no estimate is above its distance: the same distances in the same order, the same
/// places at each distance, and before each distance d is handed out the same places asked for, but for those with
/// estimate d.
pub fn same_search(estimates: &[f32], distances: &[f32], ours: &[Event], theirs: &[Event]) -> bool {
    let all_differ = |list: &[f32]| {
        let mut sorted = list.to_vec();
        sorted.sort_by(f32::total_cmp);
        sorted.windows(2).all(|two| two[0] < two[1])
    };
    if all_differ(estimates) && all_differ(distances) {
        return ours == theirs;
    }
    if estimates.iter().zip(distances).any(|(estimate, distance)| estimate > distance) {
        // Ties may change the order of everything after them: only what is asked for and handed out in all is the same.
        let all = |events: &[Event]| {
            let mut all: Vec<(u32, Option<u32>)> = events
                .iter()
                .map(|event| match event {
                    Event::Ask(place) => (*place, None),
                    Event::Give(place, distance) => (*place, Some(distance.to_bits())),
                })
                .collect();
            all.sort();
            all
        };
        return all(ours) == all(theirs);
    }
    // (distance, places handed out at it, places asked for before the first of them, but for those with that estimate)
    let steps = |events: &[Event]| {
        let mut steps: Vec<(f32, Vec<u32>, Vec<u32>)> = Vec::new();
        let mut asked = Vec::new();
        for event in events {
            match *event {
                Event::Ask(place) => asked.push(place),
                Event::Give(place, distance) => match steps.last_mut() {
                    Some(step) if step.0 == distance => step.1.push(place),
                    _ => {
                        let clear = asked.iter().filter(|place| estimates[**place as usize] != distance);
                        let mut clear: Vec<u32> = clear.copied().collect();
                        clear.sort();
                        steps.push((distance, vec![place], clear));
                    }
                },
            }
        }
        steps.iter_mut().for_each(|step| step.1.sort());
        steps
    };
    steps(ours) == steps(theirs)
}
