//! Module 3.

use super::{if_accepted, one, Call, Run};
use crate::draw::Mood;
use crate::refusal::*;
use crate::{paper, root};

pub const CALLS: &[Call] = &[Call {
    name: "lk_root",
    numbers: &[ACCEPTED, BAD_LENGTH, MISSING],
    slips: &["rounded-down", "negative-zero-loses-its-sign", "negative-zero-refused", "infinity-refused"],
    go,
    weight: 3,
}];

fn go(run: &mut Run) {
    let mood = Mood::new(&mut run.rng);
    let rng = &mut run.rng;
    let x = match rng.below(8) {
        0 => rng.float(),
        // Around the square of a number with 24 or 12 bits.
        1 => {
            let y = f32::from_bits(0x2000_0000 + rng.below(0x3F00_0000) as u32);
            f32::from_bits((y * y).to_bits().wrapping_add(rng.below(5) as u32).wrapping_sub(2))
        }
        2 => {
            let y = rng.below(4096) as f32;
            f32::from_bits((y * y).to_bits().wrapping_add(rng.below(3) as u32))
        }
        3 => f32::from_bits(rng.below(0x80_0000) as u32),
        4 => rng.pick(&[0.0, -0.0, f32::INFINITY, f32::MAX, f32::MIN_POSITIVE, -f32::MIN_POSITIVE]),
        _ => f32::from_bits(rng.word() as u32 & 0x7FFF_FFFF),
    };
    let len = mood.length(rng, 4);
    let olds = [rng.bytes(len)];
    let want = one(paper::root::call(x, &olds[0]));
    let number = want.0;
    let as_is = |bits: u32| vec![bits.to_le_bytes().to_vec()];
    run.hold(
        || format!("x {:#010X}, out of {len}", x.to_bits()),
        &olds,
        |lent| root::root(x, lent[0]),
        want.clone(),
        || (number == ACCEPTED).then(|| (ACCEPTED, as_is(x.sqrt().to_bits()))),
        |slip| match slip {
            "rounded-down" => if_accepted(number, &olds, || {
                let nearest = x.sqrt();
                let above = f64::from(nearest) * f64::from(nearest) > f64::from(x);
                as_is(if above { nearest.to_bits() - 1 } else { nearest.to_bits() })
            }),
            "negative-zero-loses-its-sign" if number == ACCEPTED && x == 0.0 => (ACCEPTED, as_is(0)),
            "negative-zero-refused" if number == ACCEPTED && x.is_sign_negative() => (MISSING, olds.to_vec()),
            "infinity-refused" if number == ACCEPTED && x == f32::INFINITY => (MISSING, olds.to_vec()),
            _ => want,
        },
    );
}
