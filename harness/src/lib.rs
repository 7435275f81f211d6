//! Lintelkite seen from outside.
//!
//! `sys` has the C functions as include/lintelkite.h declares them. Each part of the header has a module of safe
//! wrappers: they take slices of any length, so that damaged input can be tried, and return the refusal number.
//! `paper` is a plain reading of the paper to compare with, and `upstream` is the Rust that is ported. Neither shares a
//! line with the library. `rust` calls that Rust on the buffers of the C functions. `drive` tries every call on random
//! input, `bench` measures time, and `stack` the stack that a call takes. `header` reads the header's text. `program`
//! finds the proved programs for the tests that run them.

pub mod bench;
pub mod bytes;
pub mod draw;
pub mod drive;
pub mod header;
pub mod paper;
pub mod program;
pub mod refusal;
pub mod rng;
pub mod rust;
pub mod stack;
#[path = "../../bindings/rust/src/sys.rs"]
pub mod sys;
pub mod trial;
#[path = "../upstream/mod.rs"]
#[rustfmt::skip]
pub mod upstream;

pub mod block;
pub mod cabinet;
pub mod code;
pub mod digits;
pub mod estimate;
pub mod rerank;
pub mod root;
pub mod scalar;
pub mod sums;
pub mod walk;
