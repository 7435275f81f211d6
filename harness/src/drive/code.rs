//! Module 4.

use super::{if_accepted, one, Call, Run, Size};
use crate::draw::{code_len, Mood};
use crate::refusal::*;
use crate::upstream::{base::VectL2, rabitq::RabitqQuantizer};
use crate::{bytes, code, paper::code as paper, rust};

pub const CALLS: &[Call] = &[
    Call {
        name: "lk_code_size",
        numbers: &[ACCEPTED, BAD_DIMS, BAD_LENGTH],
        slips: &["a-word-too-many-at-64"],
        go: size,
        weight: 1,
    },
    Call {
        name: "lk_code_encode",
        numbers: &[ACCEPTED, BAD_DIMS, BAD_LENGTH, MISSING],
        slips: &[
            "negative-zero-is-positive",
            "nan-factor-made-quiet",
            "infinity-let-through",
            "pad-of-ones",
            "last-word-left-out",
        ],
        go: encode,
        weight: 3,
    },
    Call {
        name: "lk_code_bit",
        numbers: &[ACCEPTED, BAD_DIMS, BAD_LENGTH, OUT_OF_RANGE],
        slips: &["bits-from-the-top", "pad-bit-read"],
        go: bit,
        weight: 2,
    },
];

fn size(run: &mut Run) {
    let rust = |dims| RabitqQuantizer::<VectL2>::new(dims).code_size();
    super::size(run, Size { call: code::size, paper: paper::size, rust, slipped: |dims| 16 + 8 * (dims / 64 + 1) });
}

fn encode(run: &mut Run) {
    let mood = Mood::new(&mut run.rng);
    let dims = run.rng.rabitq_dims(&mood);
    let n = if paper::bad_dims(dims) { 10 } else { dims as usize };
    let rng = &mut run.rng;
    let len = mood.length(rng, 16);
    let mut factors = bytes::of_floats(&rng.floats(4));
    factors.resize(len, 0);
    let mut vector = rng.finite_floats(n);
    if mood.hurt(rng) {
        let at = rng.below(n);
        vector[at] = rng.pick(&crate::draw::NOT_FINITE);
    }
    let mut vector = bytes::of_floats(&vector);
    let len = mood.length(rng, vector.len());
    vector.resize(len, 0);
    let len = mood.length(rng, code_len(dims));
    let olds = [rng.bytes(len)];
    let want = one(paper::encode(dims, &factors, &vector, &olds[0]));
    let number = want.0;
    run.hold(
        || format!("dims {dims}, factors {factors:02X?}, vector {:?}", bytes::floats(&vector)),
        &olds,
        |lent| code::encode(dims, &factors, &vector, lent[0]),
        want.clone(),
        || {
            let four = || bytes::floats(&factors).try_into().unwrap();
            let code = || rust::code_encode(dims, four(), &bytes::floats(&vector));
            (number == ACCEPTED).then(|| (ACCEPTED, vec![code()]))
        },
        |slip| match slip {
            "negative-zero-is-positive" => if_accepted(number, &olds, || {
                let vector = bytes::floats(&vector);
                vec![paper::code(dims, &factors, |i| vector[i] >= 0.0)]
            }),
            "nan-factor-made-quiet" => if_accepted(number, &olds, || {
                let mut code = want.1[0].clone();
                code[..16].copy_from_slice(&bytes::of_worked_out(&bytes::floats(&factors)));
                vec![code]
            }),
            "infinity-let-through" if number == MISSING && bytes::floats(&vector).iter().all(|x| !x.is_nan()) => {
                let vector = bytes::floats(&vector);
                (ACCEPTED, vec![paper::code(dims, &factors, |i| vector[i] > 0.0)])
            }
            "pad-of-ones" => if_accepted(number, &olds, || {
                let mut code = want.1[0].clone();
                for i in dims as usize..dims.next_multiple_of(64) as usize {
                    code[16 + i / 8] |= 1 << (i % 8);
                }
                vec![code]
            }),
            "last-word-left-out" => if_accepted(number, &olds, || {
                let mut code = want.1[0].clone();
                let last = code.len() - 8;
                code[last..].fill(0);
                vec![code]
            }),
            _ => want,
        },
    );
}

fn bit(run: &mut Run) {
    let mood = Mood::new(&mut run.rng);
    let dims = run.rng.rabitq_dims(&mood);
    let rng = &mut run.rng;
    let len = mood.length(rng, code_len(dims));
    let code = rng.bytes(len);
    let near = rng.below(dims.clamp(1, 5_000) as usize) as u32;
    let index = if mood.hurt(rng) {
        rng.pick(&[
            dims,
            dims.wrapping_add(1),
            dims.max(1).checked_next_multiple_of(64).unwrap_or(0),
            4_370,
            1 << 31,
            u32::MAX,
        ])
    } else {
        near
    };
    let len = mood.length(rng, 4);
    let olds = [rng.bytes(len)];
    let want = one(paper::bit(dims, &code, index, &olds[0]));
    let number = want.0;
    run.hold(
        || format!("dims {dims}, code {code:02X?}, index {index}"),
        &olds,
        |lent| code::bit(dims, &code, index, lent[0]),
        want.clone(),
        || None,
        |slip| match slip {
            "bits-from-the-top" => if_accepted(number, &olds, || {
                let i = index as usize / 8 * 8 + 7 - index as usize % 8;
                vec![bytes::of_words(&[u32::from(paper::bit_at(&code, i))])]
            }),
            _ if number == OUT_OF_RANGE && index < dims.next_multiple_of(64) => {
                (ACCEPTED, vec![bytes::of_words(&[u32::from(paper::bit_at(&code, index as usize))])])
            }
            _ => want,
        },
    );
}
