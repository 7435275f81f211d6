//! Which form of a function is called, in the place of the crate `detect`, which cannot be had. Not the Rust's text.
//!
//! That crate picks the best form for the CPU once. Here the caller says which form it wants, for its own thread.

use std::cell::Cell;

/// The levels of x86-64 that the Rust has forms for, and the form without any.
#[derive(Debug, Clone, Copy, PartialEq, Eq)]
pub enum Level {
    Fallback,
    /// SSSE3 and popcnt.
    V2,
    /// AVX2.
    V3,
    /// AVX-512.
    V4,
}

thread_local! {
    static LEVEL: Cell<Level> = const { Cell::new(Level::Fallback) };
}

#[inline(always)]
pub fn level() -> Level {
    LEVEL.with(|level| level.get())
}

/// The levels that this CPU has, the fallback first.
pub fn levels() -> Vec<Level> {
    let mut found = vec![Level::Fallback];
    #[cfg(target_arch = "x86_64")]
    {
        let v2 = is_x86_feature_detected!("ssse3")
            && is_x86_feature_detected!("sse4.2")
            && is_x86_feature_detected!("cmpxchg16b")
            && is_x86_feature_detected!("popcnt");
        let v3 = v2
            && is_x86_feature_detected!("avx2")
            && is_x86_feature_detected!("bmi1")
            && is_x86_feature_detected!("bmi2")
            && is_x86_feature_detected!("f16c")
            && is_x86_feature_detected!("fma")
            && is_x86_feature_detected!("lzcnt")
            && is_x86_feature_detected!("movbe");
        let v4 = v3
            && cfg!(avx512)
            && is_x86_feature_detected!("avx512f")
            && is_x86_feature_detected!("avx512bw")
            && is_x86_feature_detected!("avx512cd")
            && is_x86_feature_detected!("avx512dq")
            && is_x86_feature_detected!("avx512vl");
        found.extend([(v2, Level::V2), (v3, Level::V3), (v4, Level::V4)].iter().filter(|x| x.0).map(|x| x.1));
    }
    found
}

/// Runs `f` with one form chosen. The CPU must have the level.
pub fn with<R>(chosen: Level, f: impl FnOnce() -> R) -> R {
    assert!(levels().contains(&chosen), "this CPU does not have {chosen:?}");
    let before = LEVEL.with(|level| level.replace(chosen));
    let result = f();
    LEVEL.with(|level| level.set(before));
    result
}
