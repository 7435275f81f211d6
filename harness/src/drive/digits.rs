//! Module 1.

use super::{if_accepted, one, Call, Run};
use crate::draw::Mood;
use crate::paper::digits as paper;
use crate::refusal::*;
use crate::upstream::utils::{merge_2, merge_4, merge_8, InfiniteByteChunks};
use crate::{bytes, digits, rust};

pub const CALLS: &[Call] = &[
    Call {
        name: "lk_digits_size",
        numbers: &[ACCEPTED, BAD_DIMS, BAD_WIDTH, BAD_LENGTH],
        slips: &["rounds-down"],
        go: size,
        weight: 1,
    },
    Call {
        name: "lk_digits_pack",
        numbers: &[ACCEPTED, BAD_DIMS, BAD_WIDTH, BAD_LENGTH, BAD_VALUE],
        slips: &["highest-bits-first", "fill-of-ones", "last-code-left-out", "top-is-refused"],
        go: pack,
        weight: 2,
    },
    Call {
        name: "lk_digits_read",
        numbers: &[ACCEPTED, BAD_DIMS, BAD_WIDTH, BAD_LENGTH, OUT_OF_RANGE],
        slips: &["next-digit", "index-of-dims-accepted"],
        go: read,
        weight: 2,
    },
];

/// Dims of the scalar limit, a width, and the bytes that the digits take (a guess where one of them is bad).
pub fn shape(run: &mut Run, mood: &Mood) -> (u32, u32, usize) {
    let rng = &mut run.rng;
    let dims = if mood.hurt(rng) {
        rng.pick(&[0, 65_536, 65_537, 1 << 31, u32::MAX])
    } else {
        match rng.below(200) {
            0 => rng.pick(&[65_534, 65_535, 4_369, 4_370]),
            1..=10 => 1 + rng.below(1_000) as u32,
            _ => 1 + rng.below(40) as u32,
        }
    };
    let bits = if mood.hurt(rng) {
        rng.pick(&[0, 3, 5, 6, 7, 9, 16, 32, 64, 1 << 31, u32::MAX])
    } else {
        rng.pick(&paper::WIDTHS)
    };
    let size = (dims.min(1_000) as usize * bits.min(8) as usize).div_ceil(8);
    (dims, bits, if paper::bad_dims(dims) || paper::bad_width(bits) { size } else { paper::size_of(dims, bits) })
}

fn size(run: &mut Run) {
    let mood = Mood::new(&mut run.rng);
    let (dims, bits, _) = shape(run, &mood);
    let len = mood.length(&mut run.rng, 4);
    let olds = [run.rng.bytes(len)];
    let want = one(paper::size(dims, bits, &olds[0]));
    run.hold(
        || format!("dims {dims}, bits {bits}, out of {len}"),
        &olds,
        |lent| digits::size(dims, bits, lent[0]),
        want.clone(),
        || (want.0 == ACCEPTED).then(|| (ACCEPTED, vec![bytes::of_words(&[rust::digits_size(dims, bits)])])),
        |_| if_accepted(want.0, &olds, || vec![bytes::of_words(&[dims * bits / 8])]),
    );
}

fn pack(run: &mut Run) {
    let mood = Mood::new(&mut run.rng);
    let (dims, bits, size) = shape(run, &mood);
    let n = mood.length(&mut run.rng, if paper::bad_dims(dims) { 40 } else { dims as usize });
    let top = paper::top(if paper::bad_width(bits) { 8 } else { bits }) as u64;
    let mut codes: Vec<u8> = (0..n).map(|_| (run.rng.word() % (top + 1)) as u8).collect();
    if mood.hurt(&mut run.rng) && n > 0 {
        let at = run.rng.below(n);
        codes[at] = run.rng.word() as u8;
    }
    let len = mood.length(&mut run.rng, size);
    let olds = [run.rng.bytes(len)];
    let want = one(paper::pack(dims, bits, &codes, &olds[0]));
    let number = want.0;
    run.hold(
        || format!("dims {dims}, bits {bits}, codes {codes:?}, packed of {len}"),
        &olds,
        |lent| digits::pack(dims, bits, &codes, lent[0]),
        want.clone(),
        || {
            let chunks = codes.clone().into_iter();
            let packed: Vec<u8> = match bits {
                1 => InfiniteByteChunks::new(chunks).map(merge_8).take(size).collect(),
                2 => InfiniteByteChunks::new(chunks).map(merge_4).take(size).collect(),
                4 => InfiniteByteChunks::new(chunks).map(merge_2).take(size).collect(),
                _ => codes.clone(),
            };
            (number == ACCEPTED).then(|| (ACCEPTED, vec![packed]))
        },
        |slip| match slip {
            "highest-bits-first" => if_accepted(number, &olds, || {
                let mut codes = codes.clone();
                codes.chunks_mut(8 / bits as usize).for_each(|group| group.reverse());
                vec![paper::packed(bits, &codes)]
            }),
            "fill-of-ones" => if_accepted(number, &olds, || {
                let mut filled = codes.clone();
                filled.resize(codes.len().next_multiple_of(8 / bits as usize), top as u8);
                vec![paper::packed(bits, &filled)]
            }),
            "last-code-left-out" => if_accepted(number, &olds, || {
                let mut codes = codes.clone();
                *codes.last_mut().unwrap() = 0;
                vec![paper::packed(bits, &codes)]
            }),
            _ if number == ACCEPTED && codes.iter().any(|code| u64::from(*code) == top) => (BAD_VALUE, olds.to_vec()),
            _ => want,
        },
    );
}

fn read(run: &mut Run) {
    let mood = Mood::new(&mut run.rng);
    let (dims, bits, size) = shape(run, &mood);
    let n = mood.length(&mut run.rng, size);
    let packed = run.rng.bytes(n);
    let near = run.rng.below(dims.clamp(1, 65_535) as usize) as u32;
    let index = if mood.hurt(&mut run.rng) {
        run.rng.pick(&[dims, dims.wrapping_add(1), near.wrapping_add(65_536), 1 << 31, u32::MAX])
    } else {
        near
    };
    let len = mood.length(&mut run.rng, 4);
    let olds = [run.rng.bytes(len)];
    let want = one(paper::read(dims, bits, &packed, index, &olds[0]));
    let number = want.0;
    run.hold(
        || format!("dims {dims}, bits {bits}, packed {packed:02X?}, index {index}, out of {len}"),
        &olds,
        |lent| digits::read(dims, bits, &packed, index, lent[0]),
        want.clone(),
        || None,
        |slip| match slip {
            "next-digit" => if_accepted(number, &olds, || {
                let next = (index as usize + 1) % dims as usize;
                vec![paper::digit(bits, &packed, next).to_le_bytes().to_vec()]
            }),
            _ if number == OUT_OF_RANGE && index == dims => (ACCEPTED, vec![vec![0; 4]]),
            _ => want,
        },
    );
}
