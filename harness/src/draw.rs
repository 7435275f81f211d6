//! Random input: floats of every kind, lengths right and wrong, dims small and large.

use crate::paper::block;
use crate::paper::code::{self, bad_dims};
use crate::rng::Rng;

/// Numbers where something changes: zeros, the ends of the subnormal, normal and finite ranges, halves, powers of two.
pub const FINITE: [f32; 30] = [
    0.0,
    -0.0,
    1.0,
    -1.0,
    0.5,
    -0.5,
    1.5,
    2.0,
    2.5,
    3.5,
    7.0,
    15.0,
    255.0,
    -7.5,
    99.0,
    1.9,
    f32::EPSILON,
    f32::MIN_POSITIVE,
    -f32::MIN_POSITIVE,
    f32::MAX,
    f32::MIN,
    f32::from_bits(1),
    f32::from_bits(0x8000_0001),
    f32::from_bits(0x007F_FFFF),
    f32::from_bits(0x7F00_0000),
    f32::from_bits(0x7E80_0000),
    f32::from_bits(0x5F80_0000),
    f32::from_bits(0x1F80_0000),
    f32::from_bits(0x4B80_0000),
    f32::from_bits(0x4B00_0001),
];

/// Infinities and NaNs: quiet and signalling, of either sign, with a payload.
pub const NOT_FINITE: [f32; 8] = [
    f32::INFINITY,
    f32::NEG_INFINITY,
    f32::from_bits(0x7FC0_0000),
    f32::from_bits(0xFFC0_0000),
    f32::from_bits(0x7F80_0001),
    f32::from_bits(0xFF80_0001),
    f32::from_bits(0x7FFF_FFFF),
    f32::from_bits(0x7FA1_2345),
];

pub const NANS: [f32; 6] = [NOT_FINITE[2], NOT_FINITE[3], NOT_FINITE[4], NOT_FINITE[5], NOT_FINITE[6], NOT_FINITE[7]];

/// Whether a case is damaged at all. Half of them are sound, so that answers are compared as often as refusals.
pub struct Mood {
    sound: bool,
}

impl Mood {
    pub fn new(rng: &mut Rng) -> Mood {
        Mood { sound: rng.once_in(2) }
    }

    /// Whether the next thing is to be damaged.
    pub fn hurt(&self, rng: &mut Rng) -> bool {
        !self.sound && rng.once_in(7)
    }

    /// A length, right or wrong.
    pub fn length(&self, rng: &mut Rng, right: usize) -> usize {
        if !self.hurt(rng) {
            return right;
        }
        match rng.below(5) {
            0 => right + 1,
            1 => right.saturating_sub(1),
            2 => right + 4,
            3 => 0,
            _ => rng.below(2 * right + 2),
        }
    }
}

impl Rng {
    /// A float of an ordinary size.
    pub fn mild(&mut self) -> f32 {
        (self.word() >> 40) as f32 / (1 << 23) as f32 - 1.0
    }

    pub fn finite(&mut self) -> f32 {
        match self.below(10) {
            0 => self.pick(&FINITE),
            1 => {
                let bits = self.word() as u32;
                if bits & 0x7F80_0000 == 0x7F80_0000 {
                    f32::from_bits(bits & 0xBFFF_FFFF)
                } else {
                    f32::from_bits(bits)
                }
            }
            2 => f32::from_bits(self.word() as u32 & 0x807F_FFFF),
            3 => self.below(33) as f32 - 16.0,
            4 => (self.below(65) as f32 - 32.0) / 2.0,
            5 => self.mild() * 1e18,
            _ => self.mild(),
        }
    }

    /// Any float at all.
    pub fn float(&mut self) -> f32 {
        match self.below(8) {
            0 => f32::from_bits(self.word() as u32),
            1 => self.pick(&NOT_FINITE),
            _ => self.finite(),
        }
    }

    pub fn mild_floats(&mut self, n: usize) -> Vec<f32> {
        (0..n).map(|_| self.mild()).collect()
    }

    pub fn finite_floats(&mut self, n: usize) -> Vec<f32> {
        (0..n).map(|_| self.finite()).collect()
    }

    pub fn floats(&mut self, n: usize) -> Vec<f32> {
        (0..n).map(|_| self.float()).collect()
    }

    /// Query codes: 0 to 15.
    pub fn query(&mut self, n: usize) -> Vec<u8> {
        let only = self.pick(&[None, None, None, None, None, Some(15), Some(0)]);
        (0..n).map(|_| only.unwrap_or((self.word() % 16) as u8)).collect()
    }

    /// Dims of a code or a block, mostly few.
    pub fn rabitq_dims(&mut self, mood: &Mood) -> u32 {
        if mood.hurt(self) {
            return self.pick(&[0, 4370, 4371, 65_535, 65_536, 1 << 31, u32::MAX]);
        }
        match self.below(64) {
            0 => self.pick(&[4367, 4368, 4369]),
            1 => 1 + self.below(4369) as u32,
            2..=12 => 1 + self.below(300) as u32,
            13..=24 => self.pick(&[1, 2, 3, 4, 5, 8, 16, 31, 32, 33, 63, 64, 65, 127, 128, 129]),
            _ => 1 + self.below(70) as u32,
        }
    }

    /// A metric, mostly one of the two.
    pub fn metric(&mut self, mood: &Mood) -> u32 {
        if mood.hurt(self) {
            self.pick(&[0, 3, 4, 256, 257, 1 << 31, u32::MAX])
        } else {
            self.pick(&[1, 2])
        }
    }

    /// Query codes, damaged here and there.
    pub fn query_codes(&mut self, mood: &Mood, dims: u32) -> Vec<u8> {
        let n = if bad_dims(dims) { 20 } else { dims as usize };
        let mut query = self.query(n);
        if mood.hurt(self) {
            let at = self.below(n);
            query[at] = self.pick(&[16, 17, 31, 128, 255]);
        }
        let len = mood.length(self, n);
        query.resize(len, 0);
        query
    }
}

/// The bytes that a code of these dims takes, or would take.
pub fn code_len(dims: u32) -> usize {
    code::size_of(if bad_dims(dims) { 70 } else { dims })
}

/// The bytes that a block of these dims takes, or would take.
pub fn block_len(dims: u32) -> usize {
    block::size_of(if bad_dims(dims) { 70 } else { dims })
}
