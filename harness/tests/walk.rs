//! Module 8 through its C function: the paper's ranges, the Rust's walks, both layouts, every refusal, and every byte
//! of every list.

use harness::bytes::{of_floats, words};
use harness::draw::{NANS, NOT_FINITE};
use harness::paper::estimate::Query;
use harness::paper::walk::{records_len, Walk};
use harness::paper::{block, code};
use harness::rng::Rng;
use harness::{paper, rust, sys, trial, walk};
use std::ptr::{null, null_mut};

/// The lengths of ids, bounds, marks and count for lists of so many places.
fn lens(places: usize) -> [usize; 4] {
    [4 * places, 4 * places, places, 4]
}

fn try_walk(w: Walk, lens: [usize; 4]) -> u32 {
    let what = format!("{:?}, layout {}, n {}, {}..{}, lists of {lens:?}", w.query, w.layout, w.n, w.start, w.end);
    trial::all(
        &what,
        &lens,
        |lent| match lent {
            [ids, bounds, marks, count] => walk::walk(w, ids, bounds, marks, count),
            _ => unreachable!(),
        },
        |olds| paper::walk::call(w, olds),
    )
}

/// The ids and bounds of a walk that is accepted.
fn found(w: Walk, places: usize) -> Vec<(u32, u32)> {
    let (mut ids, mut bounds, mut marks, mut count) =
        (vec![0xEE; 4 * places], vec![0xEE; 4 * places], vec![0xEE; places], [0xEE; 4]);
    assert_eq!(walk::walk(w, &mut ids, &mut bounds, &mut marks, &mut count), 0);
    let count = u32::from_le_bytes(count) as usize;
    assert_eq!(marks[..count], vec![0; count]);
    assert_eq!(marks[count..], vec![0xEE; places - count]);
    words(&ids).into_iter().zip(words(&bounds)).take(count).collect()
}

fn singles(rng: &mut Rng, dims: u32, n: usize, draw: impl Fn(&mut Rng) -> Vec<f32>) -> Vec<u8> {
    let mut records = Vec::new();
    for _ in 0..n {
        records.extend(of_floats(&draw(rng)));
        records.extend(rng.bytes(code::size_of(dims) - 16));
    }
    records
}

/// The same records as blocks: lanes past the last record are full of NaNs and set bits.
fn blocks(dims: u32, singles: &[u8]) -> Vec<u8> {
    let size = code::size_of(dims);
    let mut filled = singles.to_vec();
    filled.resize((singles.len() / size).next_multiple_of(32) * size, 0xFF);
    filled.chunks(32 * size).flat_map(|codes| block::packed(dims, codes)).collect()
}

fn mild(rng: &mut Rng) -> Vec<f32> {
    rng.mild_floats(4)
}

fn sound(metric: u32, codes: &[u8]) -> Query<'_> {
    Query { metric, dims: codes.len() as u32, dis_v_2: 2.0, b: 0.5, k: 0.25, codes }
}

// ---- what is accepted

#[test]
fn the_papers_ranges() {
    let mut rng = Rng::new(1);
    let codes = rng.query(9);
    let records = singles(&mut rng, 9, 70, mild);
    let packed = blocks(9, &records);
    for (layout, records) in [(1, &records), (2, &packed)] {
        let w = |start, end| Walk { query: sound(1, &codes), layout, records, n: 70, start, end };
        let ids = |start, end| found(w(start, end), 10).iter().map(|found| found.0).collect::<Vec<_>>();
        assert_eq!(ids(31, 33), [31, 32]);
        assert_eq!(ids(0, 0), []);
        assert_eq!(ids(5, 5), []);
        assert_eq!(ids(64, 32), []);
        assert_eq!(ids(60, 70), [60, 61, 62, 63, 64, 65, 66, 67, 68, 69]);
    }
}

/// Every range of 70 records, both layouts and both metrics, against the paper, the other layout and the Rust.
#[test]
fn every_range() {
    let mut rng = Rng::new(2);
    let codes = rng.query(13);
    let records = singles(&mut rng, 13, 70, mild);
    let packed = blocks(13, &records);
    for metric in [1, 2] {
        for start in 0..=71 {
            for end in 0..=70 {
                let w = |layout, records| Walk { query: sound(metric, &codes), layout, records, n: 70, start, end };
                let (single, block) = (w(1, &records[..]), w(2, &packed[..]));
                let ours = found(single, 70);
                assert_eq!(ours, found(block, 70), "{start}..{end}");
                let theirs = |w| rust::walk(w).into_iter().map(|(id, bound)| (id, bound.to_bits())).collect::<Vec<_>>();
                assert_eq!(ours, theirs(single), "{start}..{end}");
                if start != end {
                    assert_eq!(ours, theirs(block), "{start}..{end} of blocks");
                }
                if (start + end) % 9 == 0 {
                    assert_eq!(try_walk(single, lens(70)), 0);
                    assert_eq!(try_walk(block, lens(75)), 0);
                }
            }
        }
    }
}

/// Records of mild factors, of any finite ones, and with factors that are not finite among them, at many dims.
#[test]
fn like_the_rust_on_records_of_every_kind() {
    let mut rng = Rng::new(3);
    let mut compared = [0; 3];
    for round in 0..400 {
        let dims = if round % 40 == 0 { 4_369 - rng.below(3) } else { 1 + rng.below(200) } as u32;
        let codes = rng.query(dims as usize);
        let n = 1 + rng.below(100);
        let records = match round % 3 {
            0 => singles(&mut rng, dims, n, |rng| rng.finite_floats(4)),
            1 => singles(&mut rng, dims, n, |rng| if rng.once_in(50) { rng.floats(4) } else { rng.mild_floats(4) }),
            _ => singles(&mut rng, dims, n, mild),
        };
        let packed = blocks(dims, &records);
        let (a, b) = (rng.below(n + 1) as u32, rng.below(n + 1) as u32);
        for metric in [1, 2] {
            for (layout, records) in [(1, &records), (2, &packed)] {
                let w =
                    Walk { query: sound(metric, &codes), layout, records, n: n as u32, start: a.min(b), end: a.max(b) };
                let number = try_walk(w, lens(100));
                let bounds: Vec<f32> = (w.start..w.end).map(|id| w.bound(id)).collect();
                assert_eq!(number, if bounds.iter().any(|bound| bound.is_nan()) { 8 } else { 0 });
                if rust::walk_agrees(w) {
                    let theirs = rust::walk(w);
                    assert_eq!(number == 8, theirs.iter().any(|(_, bound)| bound.is_nan()));
                    if number == 0 {
                        let theirs: Vec<(u32, u32)> = theirs.into_iter().map(|(id, x)| (id, x.to_bits())).collect();
                        assert_eq!(found(w, 100), theirs);
                    }
                    compared[round % 3] += 1;
                }
            }
        }
    }
    assert!(compared.iter().all(|walks| *walks > 200), "{compared:?} walks are compared");
}

#[test]
fn the_most_records_and_the_most_places() {
    let n = 1_048_576;
    let query = Query { metric: 1, dims: 1, dis_v_2: 0.0, b: 0.0, k: 0.0, codes: &[1] };
    for layout in [1, 2] {
        let records = vec![0; records_len(layout, 1, n)];
        let w = Walk { query, layout, records: &records, n, start: n - 4_096, end: n };
        assert_eq!(try_walk(w, lens(4_096)), 0);
        assert_eq!(found(w, 4_096).len(), 4_096);
        assert_eq!(found(w, 4_096)[4_095], (n - 1, 0));
        let longer = vec![0; records_len(layout, 1, n + 1)];
        assert_eq!(try_walk(Walk { records: &longer, n: n + 1, ..w }, lens(4_096)), 3, "one record too many");
        assert_eq!(try_walk(w, lens(4_097)), 3, "one place too many");
        assert_eq!(try_walk(Walk { start: 0, ..w }, lens(4_096)), 7);
    }
}

/// 4,096 ids that begin inside a block reach into 129 blocks, the most that a walk can meet.
#[test]
fn the_most_blocks() {
    let mut rng = Rng::new(7);
    let codes = rng.query(3);
    let records = singles(&mut rng, 3, 4_200, mild);
    let packed = blocks(3, &records);
    for metric in [1, 2] {
        for start in [31, 37, 64, 104] {
            let w = |layout, records| Walk {
                query: sound(metric, &codes),
                layout,
                records,
                n: 4_200,
                start,
                end: start + 4_096,
            };
            let (single, block) = (w(1, &records[..]), w(2, &packed[..]));
            assert_eq!((try_walk(single, lens(4_096)), try_walk(block, lens(4_096))), (0, 0));
            assert_eq!(found(single, 4_096), found(block, 4_096), "from {start} on");
        }
    }
}

/// An empty range is accepted wherever it lies, and reads nothing.
#[test]
fn empty_ranges() {
    let codes = [7; 5];
    for layout in [1, 2] {
        for n in [0u32, 1, 32, 40] {
            let records = vec![0xFF; records_len(layout, 5, n)];
            for (start, end) in [(0, 0), (5, 5), (64, 32), (n, n), (n + 1, n + 1), (u32::MAX, u32::MAX), (u32::MAX, 0)]
            {
                let w = Walk { query: sound(2, &codes), layout, records: &records, n, start, end };
                assert_eq!(try_walk(w, lens(0)), 0, "{start}..{end} of {n}");
                assert_eq!(try_walk(w, lens(3)), 0);
                assert_eq!(found(w, 3), []);
            }
        }
    }
}

/// A NaN bound outside of the range, and lanes past n, do not matter.
#[test]
fn only_wanted_ids_matter() {
    let mut rng = Rng::new(4);
    let codes = rng.query(5);
    for layout in [1, 2] {
        for bad in [0usize, 1, 31, 32, 33, 39] {
            let mut records = singles(&mut rng, 5, 40, mild);
            records[24 * bad..24 * bad + 4].copy_from_slice(&of_floats(&[f32::NAN]));
            let records = if layout == 1 { records } else { blocks(5, &records) };
            let (bad, n) = (bad as u32, 40);
            for (start, end) in [(0, 40), (0, bad), (bad, bad + 1), (bad + 1, 40), (bad, bad)] {
                let w = Walk { query: sound(1, &codes), layout, records: &records, n, start, end };
                let wanted = (start..end).contains(&bad);
                assert_eq!(try_walk(w, lens(40)), if wanted { 8 } else { 0 }, "{start}..{end}, NaN at {bad}");
            }
        }
    }
}

// ---- what is refused

#[test]
fn bad_dims_come_first() {
    for dims in [0, 4_370, 4_371, 1 << 31, u32::MAX] {
        let query = Query { metric: 9, dims, dis_v_2: f32::NAN, b: 0.0, k: 0.0, codes: &[255] };
        for layout in [0, 1, 2] {
            for n in [0, 1, 1_048_577] {
                let w = Walk { query, layout, records: &[0xFF; 24], n, start: 0, end: 9 };
                assert_eq!(try_walk(w, [0, 1, 2, 3]), 1);
                assert_eq!(try_walk(w, lens(1)), 1);
            }
        }
    }
}

#[test]
fn then_a_bad_length() {
    for dims in [1u32, 5, 65] {
        let codes = vec![16; dims as usize];
        // Everything else is bad as well, and judged later: NaN, query code, metric, range.
        let query = Query { metric: 9, dims, dis_v_2: f32::NAN, b: 0.0, k: 0.0, codes: &codes };
        for layout in [1, 2] {
            let right = records_len(layout, dims, 40);
            let records = vec![0xFF; right];
            let w = Walk { query, layout, records: &records, n: 40, start: 0, end: 99 };
            for wrong in [0, right - 8, right - 1, right + 1, right + 8] {
                assert_eq!(try_walk(Walk { records: &vec![0xFF; wrong], ..w }, lens(8)), 3);
            }
            for n in [0, 7, 65, 1_048_577, 1 << 31, u32::MAX] {
                assert_eq!(try_walk(Walk { n, ..w }, lens(8)), 3);
            }
            for n in [0, dims as usize - 1, dims as usize + 1] {
                let codes = vec![16; n];
                if n != dims as usize {
                    assert_eq!(try_walk(Walk { query: Query { codes: &codes, ..query }, ..w }, lens(8)), 3);
                }
            }
        }
        // A layout that is none does not say how long the records are. The other lengths are judged all the same.
        for layout in [0, 3, 257, u32::MAX] {
            let w = Walk { query, layout, records: &[0xFF; 7], n: 40, start: 0, end: 99 };
            for wrong in [[31, 32, 8, 4], [32, 36, 8, 4], [32, 32, 9, 4], [32, 32, 8, 5], [16_388, 16_388, 4_097, 4]] {
                assert_eq!(try_walk(w, wrong), 3);
            }
            assert_eq!(try_walk(Walk { n: 1_048_577, ..w }, lens(8)), 3);
            assert_eq!(try_walk(Walk { query: Query { codes: &[], ..query }, ..w }, lens(8)), 3);
        }
    }
}

#[test]
fn then_lists_of_unequal_places() {
    let codes = [16];
    for layout in [1, 2] {
        let records = vec![0xFF; records_len(layout, 1, 3)];
        let w = Walk { query: sound(9, &codes), layout, records: &records, n: 3, start: 0, end: 99 };
        for wrong in [
            [0, 0, 1, 4],
            [4, 0, 0, 4],
            [0, 4, 0, 4],
            [31, 32, 8, 4],
            [33, 32, 8, 4],
            [36, 32, 8, 4],
            [32, 28, 8, 4],
            [32, 33, 8, 4],
            [32, 32, 7, 4],
            [32, 32, 9, 4],
            [32, 32, 8, 0],
            [32, 32, 8, 3],
            [32, 32, 8, 5],
            [16_388, 16_388, 4_097, 4],
        ] {
            assert_eq!(try_walk(w, wrong), 3, "{wrong:?}");
        }
    }
}

#[test]
fn then_what_is_missing() {
    for layout in [0, 1, 2] {
        let records = vec![0xFF; if layout == 0 { 5 } else { records_len(layout, 1, 3) }];
        for bad in NOT_FINITE {
            for place in 0..3 {
                let mut query = sound(9, &[16]);
                match place {
                    0 => query.dis_v_2 = bad,
                    1 => query.b = bad,
                    _ => query.k = bad,
                }
                for (start, end) in [(0, 3), (0, 99), (2, 2)] {
                    assert_eq!(try_walk(Walk { query, layout, records: &records, n: 3, start, end }, lens(2)), 4);
                }
            }
        }
    }
}

#[test]
fn then_a_bad_value() {
    for (start, end) in [(0, 3), (0, 99), (2, 2), (9, 1)] {
        for layout in [1, 2] {
            let records = vec![0xFF; records_len(layout, 1, 3)];
            let w = |query| Walk { query, layout, records: &records, n: 3, start, end };
            assert_eq!(try_walk(w(sound(1, &[16])), lens(2)), 5);
            assert_eq!(try_walk(w(sound(2, &[255])), lens(2)), 5);
            for metric in [0, 3, 257, u32::MAX] {
                assert_eq!(try_walk(w(sound(metric, &[0])), lens(2)), 5);
            }
            for dis_v_2 in [-1.0, -f32::MIN_POSITIVE, f32::MIN] {
                assert_eq!(try_walk(w(Query { dis_v_2, ..sound(1, &[0]) }), lens(2)), 5);
            }
        }
        for layout in [0, 3, 257, 1 << 31, u32::MAX] {
            for len in [0, 24, 72, 528] {
                let w = Walk { query: sound(1, &[0]), layout, records: &vec![0; len], n: 3, start, end };
                assert_eq!(try_walk(w, lens(2)), 5);
            }
        }
    }
}

#[test]
fn then_a_range_past_the_end_then_no_room_then_no_estimate() {
    for layout in [1, 2] {
        let mut records = singles(&mut Rng::new(5), 1, 40, mild);
        for nan in NANS {
            records[..4].copy_from_slice(&of_floats(&[nan]));
            let records = if layout == 1 { records.clone() } else { blocks(1, &records) };
            let w = |start, end| Walk { query: sound(1, &[15]), layout, records: &records, n: 40, start, end };
            for (start, end) in [(0, 41), (39, 41), (40, 41), (0, u32::MAX), (u32::MAX - 1, u32::MAX), (100, 101)] {
                for places in [0, 1, 40, 50] {
                    assert_eq!(try_walk(w(start, end), lens(places)), 6, "{start}..{end}");
                }
            }
            for (start, end) in [(0, 40), (0, 1), (1, 40), (39, 40)] {
                let wanted = (end - start) as usize;
                for places in [0, wanted - 1] {
                    assert_eq!(try_walk(w(start, end), lens(places)), 7, "{start}..{end} in {places} places");
                }
                for places in [wanted, wanted + 1, 4_096] {
                    assert_eq!(try_walk(w(start, end), lens(places)), if start == 0 { 8 } else { 0 });
                }
            }
        }
    }
}

#[test]
fn null_and_lengths_past_32_bits() {
    let list = [0u8; 528];
    let mut outs = [[0xEE; 8]; 4];
    let far = 1usize << 32;
    let [ids, bounds, marks, count] = outs.each_mut().map(|out| out.as_mut_ptr());
    let l = list.as_ptr();
    unsafe {
        let call = |query_len, len, lens: [usize; 4]| {
            sys::lk_walk(
                1, 1, 1, 1.0, 1.0, 1.0, l, query_len, l, len, 1, 0, 1, ids, lens[0], bounds, lens[1], marks, lens[2],
                count, lens[3],
            )
        };
        assert_eq!(call(far + 1, 24, [4, 4, 1, 4]), 3);
        assert_eq!(call(1, far + 24, [4, 4, 1, 4]), 3);
        assert_eq!(call(1, 24, [far + 4, 4, 1, 4]), 3);
        assert_eq!(call(1, 24, [4, far + 4, 1, 4]), 3);
        assert_eq!(call(1, 24, [4, 4, far + 1, 4]), 3);
        assert_eq!(call(1, 24, [4 * far + 4, 4 * far + 4, far + 1, 4]), 3);
        assert_eq!(call(1, 24, [4, 4, 1, far + 4]), 3);
        let (no, none) = (null(), null_mut());
        assert_eq!(sys::lk_walk(1, 1, 1, 1.0, 1.0, 1.0, no, 0, no, 0, 0, 0, 0, none, 0, none, 0, none, 0, none, 0), 3);
        // No records and no places: every list but the count may be NULL.
        assert_eq!(sys::lk_walk(1, 2, 1, 1.0, 1.0, 1.0, l, 1, no, 0, 0, 0, 0, none, 0, none, 0, none, 0, count, 4), 0);
    }
    assert_eq!(outs, [[0xEE; 8], [0xEE; 8], [0xEE; 8], [0, 0, 0, 0, 0xEE, 0xEE, 0xEE, 0xEE]]);
}
