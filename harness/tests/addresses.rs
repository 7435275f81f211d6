//! No alignment is asked for: what a call reads may stand at any address, and it stays as it was.

use harness::bytes::of_floats;
use harness::paper::digits::size_of;
use harness::paper::estimate::{Asked, Query};
use harness::paper::walk::Walk;
use harness::paper::{block as blocks, code as codes};
use harness::rng::Rng;
use harness::rust::Aligned;
use harness::{block, code, digits, estimate, rerank, scalar, sums, walk};
use std::hint::black_box;
use std::slice::from_ref;

const DIMS: u32 = 70;
const N: usize = DIMS as usize;

/// Makes an accepted call with what it reads at every offset from an address that divides by 8. The call fills a buffer
/// of `len` bytes.
fn at_every_offset(what: &str, read: &[Vec<u8>], len: usize, call: impl Fn(&[&[u8]], &mut [u8]) -> u32) {
    let answer = |read: &[&[u8]]| {
        let mut out = vec![0xEE; len];
        (call(read, &mut out), out)
    };
    let want = answer(&read.iter().map(|bytes| &bytes[..]).collect::<Vec<_>>());
    assert_eq!(want.0, 0, "{what}");
    for offset in 0..8 {
        let at = |i: usize| (offset + 3 * i) % 8;
        let room = |(i, bytes): (usize, &Vec<u8>)| Aligned::new(&[&vec![0xEE; at(i)][..], bytes].concat());
        let rooms: Vec<Aligned> = read.iter().enumerate().map(room).collect();
        let lent: Vec<&[u8]> = rooms.iter().enumerate().map(|(i, room)| &room.as_ref()[at(i)..]).collect();
        assert_eq!(answer(&lent), want, "{what} at offset {offset}");
        assert_eq!(black_box(lent), read, "{what}: what it reads was written");
    }
}

#[test]
fn digits_and_scalar_codes() {
    let mut rng = Rng::new(1);
    let [low, high] = [-2.0, 2.0].map(|end| of_floats(&[end; N]));
    for bits in [1, 2, 4, 8] {
        let (size, entries) = (size_of(DIMS, bits), N << bits);
        let ones = vec![1; N];
        at_every_offset("lk_digits_pack", &[ones], size, |read, out| digits::pack(DIMS, bits, read[0], out));
        let packed = rng.bytes(size);
        at_every_offset("lk_digits_read", from_ref(&packed), 4, |read, out| {
            digits::read(DIMS, bits, read[0], DIMS - 1, out)
        });
        let columns = [of_floats(&rng.mild_floats(N)), low.clone(), high.clone()];
        at_every_offset("lk_scalar_encode", &columns, size, |read, out| {
            scalar::encode(DIMS, bits, read[0], read[1], read[2], out)
        });
        let table = of_floats(&rng.mild_floats(entries));
        for metric in [1, 2] {
            at_every_offset("lk_scalar_table", &columns, 4 * entries, |read, out| {
                scalar::table(metric, DIMS, bits, read[0], read[1], read[2], out)
            });
            at_every_offset("lk_scalar_distance", &[table.clone(), packed.clone()], 4, |read, out| {
                scalar::distance(metric, DIMS, bits, read[0], read[1], out)
            });
        }
    }
}

/// A code of ordinary factors and random bits.
fn a_code(rng: &mut Rng) -> Vec<u8> {
    [of_floats(&rng.mild_floats(4)), rng.bytes(codes::size_of(DIMS) - 16)].concat()
}

fn query(metric: u32, codes: &[u8]) -> Query<'_> {
    Query { metric, dims: DIMS, dis_v_2: 2.0, b: 0.5, k: 0.25, codes }
}

#[test]
fn codes_blocks_sums_and_estimates() {
    let mut rng = Rng::new(2);
    let single = a_code(&mut rng);
    let all: Vec<u8> = (0..32).flat_map(|_| a_code(&mut rng)).collect();
    let packed = blocks::packed(DIMS, &all);
    let query_codes = rng.query(N);
    let vector = of_floats(&rng.mild_floats(N));
    let (size, block_size) = (single.len(), packed.len());
    at_every_offset("lk_code_encode", &[vec![7; 16], vector], size, |read, out| {
        code::encode(DIMS, read[0], read[1], out)
    });
    at_every_offset("lk_code_bit", from_ref(&single), 4, |read, out| code::bit(DIMS, read[0], 69, out));
    at_every_offset("lk_block_pack", &[all], block_size, |read, out| block::pack(DIMS, read[0], out));
    at_every_offset("lk_block_lane", from_ref(&packed), size, |read, out| block::lane(DIMS, read[0], 31, out));
    at_every_offset("lk_query_sum", from_ref(&query_codes), 4, |read, out| sums::query(DIMS, read[0], out));
    let (of_code, of_block) = ([query_codes.clone(), single], [query_codes, packed]);
    at_every_offset("lk_code_sum", &of_code, 4, |read, out| sums::code(DIMS, read[0], read[1], out));
    at_every_offset("lk_block_sums", &of_block, 128, |read, out| sums::block(DIMS, read[0], read[1], out));
    for metric in [1, 2] {
        for asked in [Asked::Rough, Asked::LowerBound] {
            at_every_offset("of a code", &of_code, 4, |read, out| {
                estimate::code(query(metric, read[0]), asked, read[1], out)
            });
            at_every_offset("of a block", &of_block, 128, |read, out| {
                estimate::block(query(metric, read[0]), asked, read[1], out)
            });
        }
    }
}

#[test]
fn walks_and_rerankings() {
    let mut rng = Rng::new(3);
    let all: Vec<u8> = (0..64).flat_map(|_| a_code(&mut rng)).collect();
    let packed: Vec<u8> = all.chunks(all.len() / 2).flat_map(|codes| blocks::packed(DIMS, codes)).collect();
    for (layout, records) in [(1, all), (2, packed)] {
        at_every_offset("lk_walk", &[rng.query(N), records], 4 * 64 + 4 * 64 + 64 + 4, |read, out| {
            let query = query(1, read[0]);
            let (ids, rest) = out.split_at_mut(4 * 64);
            let (bounds, rest) = rest.split_at_mut(4 * 64);
            let (marks, count) = rest.split_at_mut(64);
            walk::walk(Walk { query, layout, records: read[1], n: 64, start: 0, end: 64 }, ids, bounds, marks, count)
        });
    }
    let lists = [of_floats(&rng.mild_floats(300)), of_floats(&rng.mild_floats(300))];
    at_every_offset("lk_rerank_next", &lists, 300 + 16, |read, all| {
        let (marks, out) = all.split_at_mut(300);
        marks.fill(1);
        rerank::next(read[0], read[1], marks, out)
    });
    at_every_offset("lk_rerank_supply", &[of_floats(&[1.0; 300])], 4 * 300 + 300 + 4, |read, all| {
        let (distances, rest) = all.split_at_mut(4 * 300);
        let (marks, out) = rest.split_at_mut(300);
        marks.fill(0);
        rerank::supply(read[0], distances, marks, 0, 2.0, out)
    });
}
