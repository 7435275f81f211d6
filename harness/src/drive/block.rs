//! Module 5.

use super::{if_accepted, one, Call, Run, Size};
use crate::draw::{block_len, code_len, Mood};
use crate::paper::code;
use crate::refusal::*;
use crate::upstream::{base::VectL2, rabitq::RabitqQuantizer};
use crate::{block, paper::block as paper, rust};

pub const CALLS: &[Call] = &[
    Call {
        name: "lk_block_size",
        numbers: &[ACCEPTED, BAD_DIMS, BAD_LENGTH],
        slips: &["rounds-down"],
        go: size,
        weight: 1,
    },
    Call {
        name: "lk_block_pack",
        numbers: &[ACCEPTED, BAD_DIMS, BAD_LENGTH],
        slips: &[
            "lane-order-of-the-rust",
            "halves-of-a-byte-exchanged",
            "pad-bit-let-through",
            "last-group-left-out",
            "short-codes-filled",
        ],
        go: pack,
        weight: 2,
    },
    Call {
        name: "lk_block_lane",
        numbers: &[ACCEPTED, BAD_DIMS, BAD_LENGTH, OUT_OF_RANGE],
        slips: &[
            "halves-of-a-byte-exchanged",
            "pad-bit-let-through",
            "last-group-left-out",
            "lane-taken-modulo-32",
            "factors-of-lane-0",
        ],
        go: lane,
        weight: 2,
    },
];

fn size(run: &mut Run) {
    let rust = |dims| RabitqQuantizer::<VectL2>::new(dims).fcode_size();
    super::size(run, Size { call: block::size, paper: paper::size, rust, slipped: |dims| 512 + 16 * (dims / 4) });
}

/// The nibbles of a block with their halves exchanged.
fn exchanged(block: &[u8]) -> Vec<u8> {
    let nibbles = block[512..].iter().map(|byte| byte.rotate_left(4));
    block[..512].iter().copied().chain(nibbles).collect()
}

/// A block with no bit in its last group.
fn without_last_group(mut block: Vec<u8>) -> Vec<u8> {
    let last = block.len() - 16;
    block[last..].fill(0);
    block
}

/// A block packed from codes, pad bits of the last group and all.
fn with_pad(dims: u32, codes: &[u8]) -> Vec<u8> {
    let to = dims.next_multiple_of(4);
    let mut block = paper::packed(dims, codes);
    for (lane, single) in codes.chunks(code::size_of(dims)).enumerate() {
        for i in dims as usize..to as usize {
            let (byte, place) = paper::place(lane, i);
            block[byte] |= u8::from(code::bit_at(single, i)) << place;
        }
    }
    block
}

fn pack(run: &mut Run) {
    let mood = Mood::new(&mut run.rng);
    let dims = run.rng.rabitq_dims(&mood);
    let rng = &mut run.rng;
    let len = if mood.hurt(rng) { 31 * code_len(dims) } else { mood.length(rng, 32 * code_len(dims)) };
    let codes = rng.bytes(len);
    let len = mood.length(rng, block_len(dims));
    let olds = [rng.bytes(len)];
    let want = one(paper::pack(dims, &codes, &olds[0]));
    let number = want.0;
    run.hold(
        || format!("dims {dims}, codes {codes:02X?}, block of {len}"),
        &olds,
        |lent| block::pack(dims, &codes, lent[0]),
        want.clone(),
        || (number == ACCEPTED).then(|| (ACCEPTED, vec![rust::block_pack(dims, &codes)])),
        |slip| match slip {
            "lane-order-of-the-rust" => if_accepted(number, &olds, || vec![rust::theirs(&want.1[0])]),
            "halves-of-a-byte-exchanged" => if_accepted(number, &olds, || vec![exchanged(&want.1[0])]),
            "pad-bit-let-through" => if_accepted(number, &olds, || vec![with_pad(dims, &codes)]),
            "last-group-left-out" => if_accepted(number, &olds, || vec![without_last_group(want.1[0].clone())]),
            _ if number == BAD_LENGTH && len == paper::size_of(dims) && codes.len() < 32 * code::size_of(dims) => {
                let mut filled = codes.clone();
                filled.resize(32 * code::size_of(dims), 0);
                (ACCEPTED, vec![paper::packed(dims, &filled)])
            }
            _ => want,
        },
    );
}

fn lane(run: &mut Run) {
    let mood = Mood::new(&mut run.rng);
    let dims = run.rng.rabitq_dims(&mood);
    let rng = &mut run.rng;
    let len = mood.length(rng, block_len(dims));
    let block = rng.bytes(len);
    let lane = if mood.hurt(rng) { rng.pick(&[32, 33, 63, 256, 1 << 31, u32::MAX]) } else { rng.below(32) as u32 };
    let len = mood.length(rng, code_len(dims));
    let olds = [rng.bytes(len)];
    let want = one(paper::lane(dims, &block, lane, &olds[0]));
    let number = want.0;
    run.hold(
        || format!("dims {dims}, block {block:02X?}, lane {lane}, code of {len}"),
        &olds,
        |lent| block::lane(dims, &block, lane, lent[0]),
        want.clone(),
        || None,
        |slip| match slip {
            "halves-of-a-byte-exchanged" => {
                if_accepted(number, &olds, || vec![paper::single(dims, &exchanged(&block), lane as usize)])
            }
            "pad-bit-let-through" => if_accepted(number, &olds, || {
                let mut code = want.1[0].clone();
                for i in dims as usize..dims.next_multiple_of(4) as usize {
                    code[16 + i / 8] |= u8::from(paper::bit_at(&block, lane as usize, i)) << (i % 8);
                }
                vec![code]
            }),
            "last-group-left-out" => if_accepted(number, &olds, || {
                vec![paper::single(dims, &without_last_group(block.clone()), lane as usize)]
            }),
            "lane-taken-modulo-32" if number == OUT_OF_RANGE => {
                (ACCEPTED, vec![paper::single(dims, &block, lane as usize % 32)])
            }
            "factors-of-lane-0" => if_accepted(number, &olds, || {
                let mut code = want.1[0].clone();
                code[..16].copy_from_slice(&paper::single(dims, &block, 0)[..16]);
                vec![code]
            }),
            _ => want,
        },
    );
}
