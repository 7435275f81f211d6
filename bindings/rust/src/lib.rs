//! Lintelkite: codes of vectors, estimates of their distances, and reranking by exact distance, proved.
//!
//! Every function here is one C function of Lintelkite on slices, with its answer as a [`Result`]. Nobody has to check
//! anything first: bad input gets one [`Refusal`], and a call that refuses has changed nothing that it was lent.
//!
//! A function that returns a `Vec` has a form whose name ends in `_into`. It writes into a slice that the caller lends,
//! of exactly the length that it states, and allocates nothing.
//!
//! | module | what it is for |
//! |---|---|
//! | [`digits`] | codes of 1, 2, 4 or 8 bits in bytes |
//! | [`scalar`] | the scalar quantizer: a code for each dimension, a table for each query |
//! | [`root()`] | the square root |
//! | [`code`] | single codes: four factors and a bit for each dimension |
//! | [`block`] | 32 single codes as one block |
//! | [`sums`] | sums of query codes at set bits |
//! | [`estimate`] | estimates and lower bounds, for a single code or 32 at once |
//! | [`walk`] | the lower bounds of a range of records |
//! | [`rerank`] | candidates handed out by exact distance |
//! | [`bytes`] | floats and little-endian bytes |
//!
//! The crate links liblintelkite.a into the program. It takes the archive that LINTELKITE_ARCHIVE names, or the one that
//! `make install` put under LINTELKITE_PREFIX, both whole paths; inside the repository, where neither is set, it has `make`
//! and `rt` build it.
//!
//! # A search from end to end
//!
//! What a caller brings is not worked out by the library: the four factors of each vector, and the query as `dis_v_2`,
//! `b`, `k` and codes. This is one way to make them. The lower bounds hold for most vectors, not for all, and best where
//! one random rotation was applied to all vectors and the query first.
//!
//! ```
//! use lintelkite::{block, code, root, walk, Factors, Layout, Metric, Query, Records, Refusal, Search};
//!
//! fn factors(vector: &[f32]) -> Result<Factors, Refusal> {
//!     let dims = vector.len() as f32;
//!     let squares: f32 = vector.iter().map(|x| x * x).sum();
//!     let absolutes: f32 = vector.iter().map(|x| x.abs()).sum();
//!     let signs: f32 = vector.iter().map(|x| x.signum()).sum();
//!     // A vector of zeros has no direction. Its factors are 0, and its estimates are exact.
//!     let spread = if absolutes > 0.0 { root(dims)? * squares / absolutes } else { 0.0 };
//!     // This is 0 where all numbers have one size, and rounding may take it below. There it has no root.
//!     let rest = (spread * spread - squares).max(0.0);
//!     let factor_ip = -2.0 / root(dims)? * spread;
//!     // The method has 2.0 here. A greater number makes lower bounds: safer ones, and more reads.
//!     let factor_err = 3.0 * root(rest / (dims - 1.0).max(1.0))?;
//!     Ok(Factors { dis_u_2: squares, factor_ppc: factor_ip * signs, factor_ip, factor_err })
//! }
//!
//! /// The numbers of a vector as `b + k * code`: b, k and the codes, each of at most 15.
//! fn quantized(vector: &[f32]) -> (f32, f32, Vec<u8>) {
//!     let low = vector.iter().copied().fold(f32::INFINITY, f32::min);
//!     let high = vector.iter().copied().fold(f32::NEG_INFINITY, f32::max);
//!     let k = (high - low) / 15.0;
//!     // Where all numbers are equal, k is 0 and so is every code: the NaN of 0 / 0 becomes 0 as a u8.
//!     (low, k, vector.iter().map(|x| (((x - low) / k).round() as u8).min(15)).collect())
//! }
//! # assert_eq!(factors(&[0.0; 3])?, Factors::default());
//! # assert!(factors(&[-7.3])?.factor_err < 0.01 && factors(&[0.3; 100])?.factor_err < 0.01);
//! # assert_eq!(quantized(&[2.5; 3]), (2.5, 0.0, vec![0; 3]));
//! # assert_eq!(quantized(&[-1.0, 14.0, 5.75]), (-1.0, 1.0, vec![0, 15, 7]));
//!
//! // 70 vectors of 100 numbers from -1 to 1. What is searched for is vector 37 with some noise.
//! let (n, dims) = (70usize, 100);
//! let mut state = 1u32;
//! let mut noise = || {
//!     state = state.wrapping_mul(1_664_525).wrapping_add(1_013_904_223);
//!     (state >> 8) as f32 / 8_388_608.0 - 1.0
//! };
//! let vectors: Vec<Vec<f32>> = (0..n).map(|_| (0..dims).map(|_| noise()).collect()).collect();
//! let wanted: Vec<f32> = vectors[37].iter().map(|x| x + 0.3 * noise()).collect();
//!
//! // 70 codes take three blocks. Zeros fill up the last one, and no walk hands them out.
//! let mut codes = Vec::new();
//! for vector in &vectors {
//!     codes.extend(code::encode(factors(vector)?, vector)?);
//! }
//! let size = code::size(dims)?;
//! codes.resize(n.next_multiple_of(block::LANES) * size, 0);
//! let mut blocks = Vec::new();
//! for codes in codes.chunks(block::LANES * size) {
//!     blocks.extend(block::pack(dims, codes)?);
//! }
//! let records = Records { layout: Layout::Blocks, bytes: &blocks, n: n as u32 };
//!
//! // The lower bound of each distance. More than 4,096 records are walked in windows: see `walk::walk`.
//! let (b, k, codes) = quantized(&wanted);
//! let query = Query { dis_v_2: wanted.iter().map(|x| x * x).sum(), b, k, codes: &codes };
//! let found = walk::walk(Metric::L2, &query, &records, 0..records.n)?;
//!
//! // The nearest. An exact distance is a slow read, so there are as few as can be.
//! let exact = |id: u32| wanted.iter().zip(&vectors[id as usize]).map(|(x, y)| (x - y) * (x - y)).sum();
//! let mut search = Search::new(found)?;
//! let nearest = search.next_hit(exact)?.unwrap();
//! assert_eq!(nearest.id, 37);
//! assert!(nearest.bound <= nearest.distance);
//! assert!(search.asked() < 10);
//! # Ok::<(), Refusal>(())
//! ```

#![deny(missing_docs)]

pub mod block;
pub mod bytes;
pub mod code;
pub mod digits;
pub mod estimate;
mod mark;
mod metric;
mod refusal;
pub mod rerank;
mod root;
pub mod scalar;
pub mod sums;
// The calls into `sys` are sound. A pointer and its length come from one slice that is borrowed for the call; what is
// written is borrowed mutably, so it overlaps nothing. The functions take any numbers and bytes, keep no pointer, and
// write within the lengths alone.
mod sys;
pub mod walk;

pub use code::Factors;
pub use digits::Width;
pub use estimate::Query;
pub use mark::Mark;
pub use metric::Metric;
pub use refusal::Refusal;
pub use rerank::{Answer, Hit, Search, Step};
pub use root::root;
pub use walk::{Candidates, Layout, Records};
