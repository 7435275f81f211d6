//! Cabinets for the program `cabinet`: the two files that it reads, and the bounds and the order that they ought to give.
//!
//! The format is said in crates/cabinet_job/src/lib.rt. Nothing here calls the library.

use crate::bytes::{self, NAN};
use crate::paper::estimate::{self, Asked, Factors, Query};
use crate::paper::{block, code};
use crate::rng::Rng;

pub const L2: u32 = 1;
pub const DOT: u32 = 2;

/// A record: its factors, and a bit for each dimension.
pub struct Record {
    pub factors: Factors,
    pub bits: Vec<bool>,
}

impl Record {
    fn single_code(&self) -> Vec<u8> {
        code::code(self.bits.len() as u32, &bytes::of_floats(&self.factors), |i| self.bits[i])
    }
}

pub struct Cabinet {
    pub metric: u32,
    pub dis_v_2: f32,
    pub b: f32,
    pub k: f32,
    pub query: Vec<u8>,
    pub records: Vec<Record>,
    pub distances: Vec<f32>,
}

impl Cabinet {
    /// The lower bound of a record.
    pub fn lower_bound(&self, record: &Record) -> f32 {
        let Cabinet { metric, dis_v_2, b, k, .. } = *self;
        let query = Query { metric, dims: self.query.len() as u32, dis_v_2, b, k, codes: &self.query };
        estimate::of_code(query, Asked::LowerBound, &record.single_code())
    }

    /// The file of the records. Lanes past the last record are filled with a NaN pattern: nothing may read them.
    pub fn records_file(&self) -> Vec<u8> {
        let mut file = b"LKCAB001".to_vec();
        file.extend(bytes::of_words(&[self.metric, self.query.len() as u32, self.records.len() as u32]));
        file.extend(bytes::of_floats(&[self.dis_v_2, self.b, self.k]));
        file.extend(&self.query);
        for records in self.records.chunks(32) {
            file.extend(packed(self.query.len(), records));
        }
        file
    }

    /// The file of the exact distances.
    pub fn distances_file(&self) -> Vec<u8> {
        bytes::of_floats(&self.distances)
    }

    /// Every record by its exact distance, the lower one first when equal.
    pub fn sorted(&self) -> Vec<usize> {
        let mut order: Vec<usize> = (0..self.distances.len()).collect();
        order.sort_by(|i, j| self.distances[*i].partial_cmp(&self.distances[*j]).unwrap());
        order
    }
}

/// The block of up to 32 records.
fn packed(dims: usize, records: &[Record]) -> Vec<u8> {
    let none = Record { factors: [f32::from_bits(NAN); 4], bits: vec![false; dims] };
    let codes: Vec<u8> = (0..32).flat_map(|lane| records.get(lane).unwrap_or(&none).single_code()).collect();
    block::packed(dims as u32, &codes)
}

/// A cabinet of n random records. Every distance is at its lower bound or above it. With `ties` the distances are rounded
/// up to whole numbers, so that many are equal.
pub fn random(rng: &mut Rng, metric: u32, dims: usize, n: usize, ties: bool) -> Cabinet {
    let query = (0..dims).map(|_| rng.below(16) as u8).collect();
    let records = (0..n)
        .map(|_| Record {
            factors: [rng.mild().abs() * 8.0, rng.mild(), rng.mild() * 0.25, rng.mild().abs() * 0.5],
            bits: (0..dims).map(|_| rng.once_in(2)).collect(),
        })
        .collect();
    let mut cabinet = Cabinet {
        metric,
        dis_v_2: rng.mild().abs() * 4.0,
        b: rng.mild(),
        k: rng.mild().abs() * 0.25,
        query,
        records,
        distances: Vec::new(),
    };
    cabinet.distances = cabinet
        .records
        .iter()
        .map(|record| {
            let bound = cabinet.lower_bound(record);
            if ties {
                return bound.ceil();
            }
            match rng.below(4) {
                0 => bound,
                _ => bound + rng.mild().abs() * 2.0,
            }
        })
        .collect();
    cabinet
}
