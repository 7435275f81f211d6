//! Module 7.

use super::{if_accepted, one, Answer, Call, Run};
use crate::draw::{block_len, code_len, Mood};
use crate::paper::estimate::{self as paper, Asked, Factors, Query};
use crate::paper::{block, sums};
use crate::refusal::*;
use crate::rng::Rng;
use crate::{bytes, estimate, rust};

const CODE_NUMBERS: &[u32] = &[ACCEPTED, BAD_DIMS, BAD_LENGTH, MISSING, BAD_VALUE, NO_ESTIMATE];
const BLOCK_NUMBERS: &[u32] = &[ACCEPTED, BAD_DIMS, BAD_LENGTH, MISSING, BAD_VALUE];

pub const CALLS: &[Call] = &[
    Call {
        name: "lk_code_rough",
        numbers: CODE_NUMBERS,
        slips: &["added-from-the-right", "half-first", "fused", "nan-handed-out", "dis-v-2-below-0-accepted"],
        go: |run| code(run, Asked::Rough),
        weight: 2,
    },
    Call {
        name: "lk_code_lower_bound",
        numbers: CODE_NUMBERS,
        slips: &["added-from-the-right", "half-first", "epsilon-one-bit-up", "err-added", "fused", "nan-handed-out"],
        go: |run| code(run, Asked::LowerBound),
        weight: 3,
    },
    Call {
        name: "lk_block_rough",
        numbers: BLOCK_NUMBERS,
        slips: &["added-from-the-right", "half-first", "fused", "wrong-lane", "payload-of-a-nan", "nan-lane-refused"],
        go: |run| block(run, Asked::Rough),
        weight: 2,
    },
    Call {
        name: "lk_block_lower_bounds",
        numbers: BLOCK_NUMBERS,
        slips: &[
            "added-from-the-right",
            "half-first",
            "epsilon-one-bit-up",
            "err-added",
            "fused",
            "wrong-lane",
            "payload-of-a-nan",
            "nan-lane-refused",
        ],
        go: |run| block(run, Asked::LowerBound),
        weight: 3,
    },
];

/// The numbers of a query record.
#[derive(Clone, Copy)]
pub struct Record {
    pub dis_v_2: f32,
    pub b: f32,
    pub k: f32,
}

/// Numbers of a query record, damaged here and there.
pub fn record(rng: &mut Rng, mood: &Mood) -> Record {
    let mut record = match rng.below(3) {
        0 => Record { dis_v_2: rng.finite().abs(), b: rng.finite(), k: rng.finite() },
        1 if rng.once_in(4) => Record { dis_v_2: -0.0, b: rng.mild(), k: rng.mild() },
        _ => Record { dis_v_2: rng.mild().abs() * 9.0, b: rng.mild() * 3.0, k: rng.mild().abs() },
    };
    if mood.hurt(rng) {
        record.dis_v_2 = rng.pick(&[-1.0, -f32::MIN_POSITIVE, f32::MIN, f32::from_bits(0x8000_0001)]);
    }
    if mood.hurt(rng) {
        let bad = rng.pick(&crate::draw::NOT_FINITE);
        match rng.below(3) {
            0 => record.dis_v_2 = bad,
            1 => record.b = bad,
            _ => record.k = bad,
        }
    }
    record
}

/// Factors of one kind: ordinary ones, extreme ones, or any bits.
pub fn factors(rng: &mut Rng, kind: usize) -> Factors {
    match kind {
        0 => [0; 4].map(|_| rng.float()),
        1 => [0; 4].map(|_| rng.finite()),
        _ => [rng.mild().abs() * 5.0, rng.mild(), rng.mild(), rng.mild().abs()],
    }
}

/// The answer of a copy with this slip, for a code of these factors and sum.
fn slipped(slip: &str, query: Query, asked: Asked, factors: Factors, sum: u32) -> f32 {
    let [dis_u_2, factor_ppc, factor_ip, factor_err] = factors;
    let (s, q, root) = (sum as f32, sums::of_query(query.codes) as f32, query.dis_v_2.sqrt());
    let product = ((2.0 * s - q) * factor_ip) * query.k;
    let mut rough = query.rough(factors, sum);
    let mut err = query.err(factors);
    let mut epsilon = paper::EPSILON;
    match slip {
        "added-from-the-right" if query.metric == 1 => {
            rough = dis_u_2 + (query.dis_v_2 + (query.b * factor_ppc + product));
        }
        "half-first" if query.metric == 2 => {
            rough = 0.5 * query.b * factor_ppc + 0.5 * (2.0 * s - q) * factor_ip * query.k;
            err = 0.5 * factor_err * root;
        }
        "fused" if query.metric == 1 => rough = query.b.mul_add(factor_ppc, dis_u_2 + query.dis_v_2) + product,
        "epsilon-one-bit-up" => epsilon = f32::from_bits(0x3FF3_3334),
        "err-added" => epsilon = -epsilon,
        _ => {}
    }
    match asked {
        Asked::Rough => rough,
        Asked::LowerBound if slip == "fused" => (-epsilon).mul_add(err, rough),
        Asked::LowerBound => rough - epsilon * err,
    }
}

fn code(run: &mut Run, asked: Asked) {
    let mood = Mood::new(&mut run.rng);
    let dims = run.rng.rabitq_dims(&mood);
    let metric = run.rng.metric(&mood);
    let codes = run.rng.query_codes(&mood, dims);
    let rng = &mut run.rng;
    let Record { dis_v_2, b, k } = record(rng, &mood);
    let query = Query { metric, dims, dis_v_2, b, k, codes: &codes };
    let kind = rng.below(5);
    let mut code = bytes::of_floats(&factors(rng, kind));
    code.extend(rng.bytes(code_len(dims) - 16));
    let len = mood.length(rng, code_len(dims));
    code.resize(len, 0);
    let len = mood.length(rng, 4);
    let olds = [rng.bytes(len)];
    let want = one(paper::code(query, asked, &code, &olds[0]));
    let number = want.0;
    let judged = number == ACCEPTED || number == NO_ESTIMATE;
    let answer = |estimate: f32| -> Answer {
        match estimate.is_nan() {
            true => (NO_ESTIMATE, olds.to_vec()),
            false => (ACCEPTED, vec![bytes::of_floats(&[estimate])]),
        }
    };
    run.hold(
        || format!("{query:?}, code {code:02X?}, out of {len}"),
        &olds,
        |lent| estimate::code(query, asked, &code, lent[0]),
        want.clone(),
        || {
            let agree =
                judged && rust::halves_agree(query, paper::factors_of_code(&code), sums::of_code(&codes, &code), asked);
            agree.then(|| answer(rust::estimate_code(query, asked, &code)))
        },
        |slip| match slip {
            "nan-handed-out" if number == NO_ESTIMATE => (ACCEPTED, vec![bytes::of_words(&[bytes::NAN])]),
            "dis-v-2-below-0-accepted" if number == BAD_VALUE && dis_v_2 < 0.0 => {
                answer(paper::of_code(query, Asked::Rough, &code))
            }
            _ if judged => {
                let (factors, sum) = (paper::factors_of_code(&code), sums::of_code(&codes, &code));
                answer(slipped(slip, query, asked, factors, sum))
            }
            _ => want,
        },
    );
}

fn block(run: &mut Run, asked: Asked) {
    let mood = Mood::new(&mut run.rng);
    let dims = run.rng.rabitq_dims(&mood);
    let metric = run.rng.metric(&mood);
    let codes = run.rng.query_codes(&mood, dims);
    let rng = &mut run.rng;
    let Record { dis_v_2, b, k } = record(rng, &mood);
    let query = Query { metric, dims, dis_v_2, b, k, codes: &codes };
    let kind = rng.below(5);
    let block = random_block(rng, dims, kind);
    let len = mood.length(rng, block.len());
    let block: Vec<u8> = block.into_iter().chain(std::iter::repeat(0)).take(len).collect();
    let len = mood.length(rng, 128);
    let olds = [rng.bytes(len)];
    let want = one(paper::block(query, asked, &block, &olds[0]));
    let number = want.0;
    let lane = |lane: usize| (paper::factors_of_lane(&block, lane), sums::of_lane(&codes, &block, lane));
    let lanes = |estimate: &dyn Fn(usize) -> f32| -> Vec<Vec<u8>> {
        vec![bytes::of_worked_out(&(0..32).map(estimate).collect::<Vec<_>>())]
    };
    run.hold(
        || format!("{query:?}, block {block:02X?}, out of {len}"),
        &olds,
        |lent| estimate::block(query, asked, &block, lent[0]),
        want.clone(),
        || {
            let agree = |(factors, sum)| rust::halves_agree(query, factors, sum, asked);
            if number != ACCEPTED || !(0..32).all(|i| agree(lane(i))) {
                return None;
            }
            let estimates = rust::estimate_block(query, asked, &block);
            Some((ACCEPTED, lanes(&|i| estimates[i])))
        },
        |slip| match slip {
            "wrong-lane" => if_accepted(number, &olds, || {
                lanes(&|i| {
                    let (factors, sum) = (lane(i).0, lane((i + 16) % 32).1);
                    slipped("", query, asked, factors, sum)
                })
            }),
            "payload-of-a-nan" => if_accepted(number, &olds, || {
                let lanes = bytes::words(&want.1[0]);
                let quiet = lanes.iter().map(|x| if *x == bytes::NAN { 0xFFC0_0000 } else { *x });
                vec![bytes::of_words(&quiet.collect::<Vec<_>>())]
            }),
            "nan-lane-refused" if number == ACCEPTED && bytes::words(&want.1[0]).contains(&bytes::NAN) => {
                (NO_ESTIMATE, olds.to_vec())
            }
            _ => if_accepted(number, &olds, || lanes(&|i| slipped(slip, query, asked, lane(i).0, lane(i).1))),
        },
    );
}

/// A block of random lanes, with factors of one kind.
pub fn random_block(rng: &mut Rng, dims: u32, kind: usize) -> Vec<u8> {
    let mut bytes = rng.bytes(block_len(dims));
    for lane in 0..32 {
        for (f, factor) in factors(rng, kind).iter().enumerate() {
            bytes[block::factor(f, lane)].copy_from_slice(&factor.to_bits().to_le_bytes());
        }
    }
    bytes
}
