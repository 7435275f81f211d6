//! Module 6.

use super::{if_accepted, one, Answer, Call, Run};
use crate::draw::{block_len, code_len, Mood};
use crate::refusal::*;
use crate::upstream::detect::{levels, with};
use crate::{bytes, paper::block, paper::code, paper::sums as paper, rust, sums};

pub const CALLS: &[Call] = &[
    Call {
        name: "lk_query_sum",
        numbers: &[ACCEPTED, BAD_DIMS, BAD_LENGTH, BAD_VALUE],
        slips: &["code-16-accepted", "last-code-left-out", "cut-to-15-bits"],
        go: query,
        weight: 1,
    },
    Call {
        name: "lk_code_sum",
        numbers: &[ACCEPTED, BAD_DIMS, BAD_LENGTH, BAD_VALUE],
        slips: &["pad-bits-counted", "plane-3-weighs-4", "code-16-accepted", "cut-to-15-bits", "last-word-left-out"],
        go: code_sum,
        weight: 2,
    },
    Call {
        name: "lk_block_sums",
        numbers: &[ACCEPTED, BAD_DIMS, BAD_LENGTH, BAD_VALUE],
        slips: &[
            "wrong-half",
            "pad-bits-counted",
            "lane-order-of-the-rust",
            "code-16-accepted",
            "sums-of-8-bits",
            "last-group-left-out",
            "groups-past-1024-left-out",
        ],
        go: block_sums,
        weight: 2,
    },
];

fn query(run: &mut Run) {
    let mood = Mood::new(&mut run.rng);
    let dims = run.rng.rabitq_dims(&mood);
    let codes = run.rng.query_codes(&mood, dims);
    let len = mood.length(&mut run.rng, 4);
    let olds = [run.rng.bytes(len)];
    let want = one(paper::query(dims, &codes, &olds[0]));
    let number = want.0;
    let answer = |sum: u32| -> Answer { (ACCEPTED, vec![bytes::of_words(&[sum])]) };
    run.hold(
        || format!("dims {dims}, query {codes:?}, out of {len}"),
        &olds,
        |lent| sums::query(dims, &codes, lent[0]),
        want.clone(),
        || (number == ACCEPTED).then(|| answer(rust::query_sum(&codes))),
        |slip| match slip {
            "code-16-accepted" if number == BAD_VALUE && codes.iter().all(|code| *code <= 16) => {
                answer(paper::of_query(&codes))
            }
            "last-code-left-out" if number == ACCEPTED => answer(paper::of_query(&codes[..codes.len() - 1])),
            "cut-to-15-bits" if number == ACCEPTED => answer(paper::of_query(&codes) % 0x8000),
            _ => want,
        },
    );
}

fn code_sum(run: &mut Run) {
    let mood = Mood::new(&mut run.rng);
    let dims = run.rng.rabitq_dims(&mood);
    let codes = run.rng.query_codes(&mood, dims);
    let rng = &mut run.rng;
    let len = mood.length(rng, code_len(dims));
    let code = if rng.once_in(5) { vec![0xFF; len] } else { rng.bytes(len) };
    let len = mood.length(rng, 4);
    let olds = [rng.bytes(len)];
    let want = one(paper::code(dims, &codes, &code, &olds[0]));
    let number = want.0;
    let answer = |sum: u32| -> Answer { (ACCEPTED, vec![bytes::of_words(&[sum])]) };
    run.hold(
        || format!("dims {dims}, query {codes:?}, code {code:02X?}, out of {len}"),
        &olds,
        |lent| sums::code(dims, &codes, &code, lent[0]),
        want.clone(),
        || {
            if number != ACCEPTED {
                return None;
            }
            let mut forms = levels().into_iter().map(|level| with(level, || rust::code_sum(&codes, &code)));
            let sum = forms.next().unwrap();
            assert!(forms.all(|other| other == sum), "the Rust's forms differ");
            Some(answer(sum))
        },
        |slip| match slip {
            "pad-bits-counted" if number == ACCEPTED => {
                let pad = (dims..dims.next_multiple_of(64)).filter(|i| code::bit_at(&code, *i as usize)).count();
                answer(paper::of_code(&codes, &code) + pad as u32)
            }
            "plane-3-weighs-4" if number == ACCEPTED => {
                let light: Vec<u8> = codes.iter().map(|code| code % 8 + code / 8 * 4).collect();
                answer(paper::of_code(&light, &code))
            }
            "code-16-accepted" if number == BAD_VALUE && codes.iter().all(|code| *code <= 16) => {
                answer(paper::of_code(&codes, &code))
            }
            "cut-to-15-bits" if number == ACCEPTED => answer(paper::of_code(&codes, &code) % 0x8000),
            "last-word-left-out" if number == ACCEPTED => {
                answer(paper::of_code(&codes[..(codes.len() - 1) / 64 * 64], &code))
            }
            _ => want,
        },
    );
}

fn block_sums(run: &mut Run) {
    let mood = Mood::new(&mut run.rng);
    let dims = run.rng.rabitq_dims(&mood);
    let codes = run.rng.query_codes(&mood, dims);
    let rng = &mut run.rng;
    let len = mood.length(rng, block_len(dims));
    let block = if rng.once_in(5) { vec![0xFF; len] } else { rng.bytes(len) };
    let len = mood.length(rng, 128);
    let olds = [rng.bytes(len)];
    let want = one(paper::block(dims, &codes, &block, &olds[0]));
    let number = want.0;
    let lanes =
        |sum: &dyn Fn(usize) -> u32| -> Vec<Vec<u8>> { vec![bytes::of_words(&(0..32).map(sum).collect::<Vec<_>>())] };
    // The answer of a copy that stops after so many codes.
    let up_to = |end: usize| if_accepted(number, &olds, || lanes(&|lane| paper::of_lane(&codes[..end], &block, lane)));
    run.hold(
        || format!("dims {dims}, query {codes:?}, block {block:02X?}, out of {len}"),
        &olds,
        |lent| sums::block(dims, &codes, &block, lent[0]),
        want.clone(),
        || {
            if number != ACCEPTED {
                return None;
            }
            let forms = levels().into_iter().map(|level| with(level, || rust::block_sums(&codes, &block)));
            let forms: Vec<_> = forms.collect();
            assert!(forms.iter().all(|other| *other == forms[0]), "the Rust's forms differ");
            Some((ACCEPTED, lanes(&|lane| forms[0][lane])))
        },
        |slip| match slip {
            "wrong-half" => {
                if_accepted(number, &olds, || lanes(&|lane| paper::of_lane(&codes, &block, (lane + 16) % 32)))
            }
            "pad-bits-counted" => if_accepted(number, &olds, || {
                lanes(&|lane| {
                    let pad = dims as usize..dims.next_multiple_of(4) as usize;
                    let pad = pad.filter(|i| block::bit_at(&block, lane, *i)).count();
                    paper::of_lane(&codes, &block, lane) + pad as u32
                })
            }),
            "lane-order-of-the-rust" => {
                let theirs = || rust::theirs(&block);
                if_accepted(number, &olds, || lanes(&|lane| paper::of_lane(&codes, &theirs(), lane)))
            }
            "code-16-accepted" if number == BAD_VALUE && codes.iter().all(|code| *code <= 16) => {
                (ACCEPTED, lanes(&|lane| paper::of_lane(&codes, &block, lane)))
            }
            "last-group-left-out" if number == ACCEPTED => up_to((codes.len() - 1) / 4 * 4),
            "groups-past-1024-left-out" if number == ACCEPTED => up_to(codes.len().min(4 * 1024)),
            "sums-of-8-bits" => {
                if_accepted(number, &olds, || lanes(&|lane| paper::of_lane(&codes, &block, lane) % 256))
            }
            _ => want,
        },
    );
}
