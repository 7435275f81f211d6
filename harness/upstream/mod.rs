//! The Rust that is ported, as far as it can be built: the parts of pgvecto.rs at 2b290b34e8 that need none of the
//! crates `base`, `detect` and `common`. base.rs and detect.rs are ours, and each other file's head says what was
//! changed.

#![allow(unused_unsafe, clippy::all)]

pub mod base;
pub mod detect;
pub mod quantize;
pub mod rabitq;
pub mod scalar;
pub mod utils;

pub mod fast_scan {
    pub mod b4;
}

pub mod reranker {
    pub mod error;
}
