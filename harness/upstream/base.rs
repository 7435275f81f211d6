//! What the Rust takes from the crate `base`, which cannot be had, replaced by the least that serves. Not the Rust's
//! text.

use std::cmp::Ordering;

/// A distance is the bits of its f32. Order is IEEE's, so -0.0 equals +0.0; a NaN stands after every number, because
/// the heaps need an order of everything.
#[derive(Debug, Clone, Copy)]
pub struct Distance(u32);

impl Distance {
    pub fn from_f32(value: f32) -> Self {
        Self(value.to_bits())
    }

    pub fn to_f32(self) -> f32 {
        f32::from_bits(self.0)
    }
}

impl From<f32> for Distance {
    fn from(value: f32) -> Self {
        Self::from_f32(value)
    }
}

impl Ord for Distance {
    fn cmp(&self, other: &Self) -> Ordering {
        let (x, y) = (self.to_f32(), other.to_f32());
        x.partial_cmp(&y).unwrap_or_else(|| x.is_nan().cmp(&y.is_nan()))
    }
}

impl PartialOrd for Distance {
    fn partial_cmp(&self, other: &Self) -> Option<Ordering> {
        Some(self.cmp(other))
    }
}

impl PartialEq for Distance {
    fn eq(&self, other: &Self) -> bool {
        self.cmp(other) == Ordering::Equal
    }
}

impl Eq for Distance {}

/// Takes no part in an order.
#[derive(Debug, Clone, Copy)]
pub struct AlwaysEqual<T>(pub T);

impl<T> Ord for AlwaysEqual<T> {
    fn cmp(&self, _: &Self) -> Ordering {
        Ordering::Equal
    }
}

impl<T> PartialOrd for AlwaysEqual<T> {
    fn partial_cmp(&self, other: &Self) -> Option<Ordering> {
        Some(self.cmp(other))
    }
}

impl<T> PartialEq for AlwaysEqual<T> {
    fn eq(&self, _: &Self) -> bool {
        true
    }
}

impl<T> Eq for AlwaysEqual<T> {}

pub trait RerankerPop<T> {
    fn pop(&mut self) -> Option<(Distance, u32, T)>;
}

/// The two metrics that are ported, over f32.
pub struct VectL2;
pub struct VectDot;
