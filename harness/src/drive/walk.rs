//! Module 8.

use super::estimate::{factors, random_block, record, Record};
use super::{Answer, Call, Run};
use crate::draw::{code_len, Mood};
use crate::paper::estimate::Query;
use crate::paper::walk::{self as paper, Walk};
use crate::refusal::*;
use crate::rng::Rng;
use crate::{bytes, rust, walk};

pub const CALLS: &[Call] = &[Call {
    name: "lk_walk",
    numbers: &[ACCEPTED, BAD_DIMS, BAD_LENGTH, MISSING, BAD_VALUE, OUT_OF_RANGE, NO_ROOM, NO_ESTIMATE],
    slips: &[
        "one-short",
        "one-past-the-range",
        "nan-written",
        "places-past-the-count-cleared",
        "marks-left",
        "room-before-range",
        "empty-range-refused",
        "next-record",
        "wrong-lane",
        "first-block-again",
        "129th-block-left-out",
        "half-first",
        "nan-outside-the-range-refused",
    ],
    go,
    weight: 5,
}];

fn go(run: &mut Run) {
    let mood = Mood::new(&mut run.rng);
    let dims = run.rng.rabitq_dims(&mood);
    let metric = run.rng.metric(&mood);
    let layout = if mood.hurt(&mut run.rng) { run.rng.pick(&[0, 3, 257, u32::MAX]) } else { run.rng.pick(&[1, 2]) };
    let codes = run.rng.query_codes(&mood, dims);
    let rng = &mut run.rng;
    let Record { dis_v_2, b, k } = record(rng, &mood);
    let query = Query { metric, dims, dis_v_2, b, k, codes: &codes };

    let few = if dims > 1_000 { 40 } else { 100 };
    // Now and then more records than the lists can have places.
    let right_n = match rng.below(100) {
        0 if dims <= 24 => 4_000 + rng.below(300),
        1..=33 => rng.pick(&[0, 1, 31, 32, 33, 64]),
        _ => 1 + rng.below(few),
    };
    let mut records = Vec::new();
    // Factors of one kind, or with one of any bits among them now and then.
    let (usual, rare) = (rng.below(6), rng.once_in(3));
    let kind = |rng: &mut Rng| if rare && rng.once_in(20) { 0 } else { usual };
    if layout == 2 {
        for _ in 0..right_n.div_ceil(32) {
            let kind = kind(rng);
            records.extend(random_block(rng, dims, kind));
        }
    } else {
        for _ in 0..right_n {
            let kind = kind(rng);
            records.extend(bytes::of_floats(&factors(rng, kind)));
            records.extend(rng.bytes(code_len(dims) - 16));
        }
    }
    let len = mood.length(rng, records.len());
    records.resize(len, 0);
    let n = if mood.hurt(rng) { rng.pick(&[1_048_577, u32::MAX, right_n as u32 + 1]) } else { right_n as u32 };
    let (start, end) = match rng.below(8) {
        _ if right_n >= 4_096 && rng.once_in(2) => (right_n as u32 - 4_096, right_n as u32),
        0 => (0, right_n as u32),
        1 => {
            let at = rng.word() as u32 >> rng.below(32);
            (at, at)
        }
        2 => (rng.word() as u32 >> rng.below(32), rng.word() as u32 >> rng.below(32)),
        _ => {
            let (a, b) = (rng.below(right_n + 1) as u32, rng.below(right_n + 1) as u32);
            if rng.once_in(10) {
                (a.max(b), a.min(b))
            } else {
                (a.min(b), a.max(b))
            }
        }
    };
    let (start, end) = if mood.hurt(rng) { (start, (right_n + 1) as u32) } else { (start, end) };
    let wanted = end.saturating_sub(start) as usize;
    let places = match rng.below(10) {
        0 => 0,
        1 => wanted.saturating_sub(1).min(4_096),
        2 => 4_096,
        3 if mood.hurt(rng) => 4_097,
        _ => (wanted.min(4_096) + rng.below(10)).min(4_096),
    };
    let lens =
        [mood.length(rng, 4 * places), mood.length(rng, 4 * places), mood.length(rng, places), mood.length(rng, 4)];
    let olds = lens.map(|len| rng.bytes(len));
    let walk = Walk { query, layout, records: &records, n, start, end };
    let want = paper::call(walk, &olds);
    let number = want.0;
    let judged = number == ACCEPTED || number == NO_ESTIMATE;
    run.hold(
        || format!("{query:?}, layout {layout}, n {n}, {start}..{end}, lists of {lens:?}, records {records:02X?}"),
        &olds,
        |lent| match lent {
            [ids, bounds, marks, count] => walk::walk(walk, ids, bounds, marks, count),
            _ => unreachable!(),
        },
        want.clone(),
        || {
            if !judged || !rust::walk_agrees(walk) {
                return None;
            }
            Some(answer(&rust::walk(walk), &olds))
        },
        |slip| slipped(slip, walk, &olds, &want),
    );
}

/// The answer that hands out these ids and bounds: a NaN among them is a refusal.
fn answer(found: &[(u32, f32)], olds: &[Vec<u8>]) -> Answer {
    if found.iter().any(|(_, bound)| bound.is_nan()) {
        return (NO_ESTIMATE, olds.to_vec());
    }
    (ACCEPTED, written(found, olds))
}

fn written(found: &[(u32, f32)], olds: &[Vec<u8>]) -> Vec<Vec<u8>> {
    let mut lists = olds.to_vec();
    for (place, (id, bound)) in found.iter().enumerate() {
        lists[0][4 * place..4 * place + 4].copy_from_slice(&id.to_le_bytes());
        lists[1][4 * place..4 * place + 4].copy_from_slice(&bytes::worked_out(*bound).to_le_bytes());
        lists[2][place] = 0;
    }
    lists[3] = bytes::of_words(&[found.len() as u32]);
    lists
}

fn slipped(slip: &str, walk: Walk, olds: &[Vec<u8>], want: &Answer) -> Answer {
    let (number, mut lists) = want.clone();
    let found = || -> Vec<(u32, f32)> { (walk.start..walk.end).map(|id| (id, walk.bound(id))).collect() };
    // The ids of the range, each with the bound of another.
    let bounds_of = |other: &dyn Fn(u32) -> u32| -> Vec<(u32, f32)> {
        (walk.start..walk.end).map(|id| (id, walk.bound(other(id)))).collect()
    };
    let count = found_count(walk);
    match slip {
        "one-short" if number == ACCEPTED && count > 0 => return answer(&found()[..count - 1], olds),
        "one-past-the-range" if number == ACCEPTED && count > 0 && count < olds[2].len() && walk.end < walk.n => {
            let mut found = found();
            found.push((walk.end, walk.bound(walk.end)));
            return answer(&found, olds);
        }
        "nan-written" if number == NO_ESTIMATE => return (ACCEPTED, written(&found(), olds)),
        "places-past-the-count-cleared" if number == ACCEPTED => lists[0][4 * count..].fill(0),
        "marks-left" if number == ACCEPTED => lists[2] = olds[2].clone(),
        "room-before-range" if number == OUT_OF_RANGE && count > olds[2].len() => return (NO_ROOM, olds.to_vec()),
        "empty-range-refused" if number == ACCEPTED && count == 0 && walk.end > walk.n => {
            return (OUT_OF_RANGE, olds.to_vec());
        }
        "next-record" if number == ACCEPTED && walk.layout == 1 => {
            return answer(&bounds_of(&|id| (id + 1).min(walk.n - 1)), olds);
        }
        "wrong-lane" if number == ACCEPTED && walk.layout == 2 => return answer(&bounds_of(&|id| id ^ 16), olds),
        "first-block-again" if number == ACCEPTED && walk.layout == 2 => {
            return answer(&bounds_of(&|id| id % 32 + walk.start / 32 * 32), olds);
        }
        "129th-block-left-out" if number == ACCEPTED && walk.layout == 2 => {
            let mut found = found();
            found.iter_mut().filter(|(id, _)| id / 32 - walk.start / 32 == 128).for_each(|(_, bound)| *bound = 0.0);
            return answer(&found, olds);
        }
        "half-first" if (number == ACCEPTED || number == NO_ESTIMATE) && count > 0 => {
            return answer(&rust::walk(walk), olds);
        }
        "nan-outside-the-range-refused" if number == ACCEPTED && (0..walk.n).any(|id| walk.bound(id).is_nan()) => {
            return (NO_ESTIMATE, olds.to_vec());
        }
        _ => {}
    }
    (number, lists)
}

fn found_count(walk: Walk) -> usize {
    walk.end.saturating_sub(walk.start) as usize
}
