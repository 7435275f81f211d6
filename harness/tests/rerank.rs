//! Module 9 through its C functions: the paper's runs, whole searches against the Rust's, the sentences of the third
//! demand from outside, every refusal, and every byte of every buffer.

use harness::bytes::{floats, of_floats, words};
use harness::draw::NANS;
use harness::rng::Rng;
use harness::rust::Event::{self, Ask, Give};
use harness::{paper, rerank, rust, sys, trial};
use std::ptr::{null, null_mut};

fn try_next(estimates: &[u8], distances: &[u8], marks: &[u8], len: usize) -> u32 {
    trial::with_out(
        &format!("next of {:?}, {:?}, {marks:?}, out of {len}", floats(estimates), floats(distances)),
        &[marks],
        len,
        |lent| match lent {
            [marks, out] => rerank::next(estimates, distances, marks, out),
            _ => unreachable!(),
        },
        |old| paper::rerank::next(estimates, distances, marks, old),
    )
}

fn try_supply(estimates: &[u8], distances: &[u8], marks: &[u8], place: u32, distance: f32, len: usize) -> u32 {
    trial::with_out(
        &format!("supply {place} {distance} to {:?}, {:?}, {marks:?}", floats(estimates), floats(distances)),
        &[distances, marks],
        len,
        |lent| match lent {
            [distances, marks, out] => rerank::supply(estimates, distances, marks, place, distance, out),
            _ => unreachable!(),
        },
        |old| paper::rerank::supply(estimates, distances, marks, place, distance, old),
    )
}

fn search(estimates: &[f32], distances: &[f32]) -> Vec<Event> {
    rerank::search(estimates, |place| distances[place as usize])
}

// ---- searches

#[test]
fn the_papers_runs() {
    let run = search(&[1.0, 2.0, 3.0], &[2.5, 2.0, 9.0]);
    assert_eq!(run, [Ask(0), Ask(1), Give(1, 2.0), Give(0, 2.5), Ask(2), Give(2, 9.0)]);
    let run = search(&[1.0, 2.0], &[2.0, 2.0]);
    assert_eq!(run, [Ask(0), Give(0, 2.0), Ask(1), Give(1, 2.0)]);
}

/// Checks the sentences of the third demand on a search, from the calls' answers alone. `premise`: no distance is below
/// its estimate.
fn demand_3(estimates: &[f32], exact: &[f32], premise: bool) {
    let n = estimates.len();
    let bytes = of_floats(estimates);
    let (mut distances, mut marks) = (vec![0xFF; 4 * n], vec![0; n]);
    let mut asked = vec![false; n];
    let mut given: Vec<(usize, f32)> = Vec::new();
    for call in 0.. {
        assert!(call <= 2 * n, "a search of {n} places that does not end");
        let mut out = [0xEE; 16];
        assert_eq!(rerank::next(&bytes, &distances, &mut marks, &mut out), 0);
        let [answer, place, distance, count] = words(&out)[..] else { unreachable!() };
        let place = place as usize;
        // "The count of asked that each call reports equals the candidates no longer waiting."
        assert_eq!(count as usize, asked.iter().filter(|asked| **asked).count());
        match answer {
            0 => {
                assert_eq!((place, distance), (0, 0));
                break;
            }
            1 => {
                assert_eq!(distance, 0);
                assert!(!asked[place], "no place is asked for twice");
                // "asks for distances one by one": no other place can be supplied now.
                for other in 0..n {
                    if other != place {
                        let (mut distances, mut marks, mut four) = (distances.clone(), marks.clone(), [0xEE; 4]);
                        let number = rerank::supply(&bytes, &mut distances, &mut marks, other as u32, 0.0, &mut four);
                        assert_eq!(number, 9);
                    }
                }
                let mut four = [0xEE; 4];
                let number = rerank::supply(&bytes, &mut distances, &mut marks, place as u32, exact[place], &mut four);
                assert_eq!(number, 0);
                asked[place] = true;
                assert_eq!(u32::from_le_bytes(four), count + 1);
            }
            _ => {
                // What is handed out is the distance that was supplied, bit for bit.
                assert_eq!(distance, exact[place].to_bits());
                assert!(asked[place] && given.iter().all(|(other, _)| *other != place), "each is handed out once");
                let d = exact[place];
                if premise {
                    // "every candidate with an estimate below d has been asked for and none with an estimate above d"
                    for (i, asked) in asked.iter().enumerate() {
                        assert!(estimates[i] >= d || *asked, "estimate {} below {d}", estimates[i]);
                        assert!(estimates[i] <= d || !*asked, "estimate {} above {d}", estimates[i]);
                    }
                    assert!(given.last().is_none_or(|(_, before)| *before <= d), "distances never fall");
                }
                given.push((place, d));
            }
        }
    }
    assert_eq!(given.len(), n, "every candidate is handed out");
    assert_eq!(marks, vec![2; n]);
    // Done stays Done.
    let mut out = [0xEE; 16];
    assert_eq!(rerank::next(&bytes, &distances, &mut marks, &mut out), 0);
    assert_eq!(words(&out), [0, 0, 0, n as u32]);
}

/// Candidates of some kind: (estimates, distances, whether no distance is below its estimate).
fn candidates(rng: &mut Rng, kind: usize, n: usize) -> (Vec<f32>, Vec<f32>, bool) {
    let zeros = [0.0, -0.0, 1.0, f32::INFINITY, f32::NEG_INFINITY];
    let mut lists = (Vec::new(), Vec::new());
    for _ in 0..n {
        let (estimate, distance) = match kind {
            // bounds that hold: all different, many equal, zeros and infinities
            0 => {
                let estimate = rng.mild();
                (estimate, estimate + rng.mild().abs())
            }
            1 => {
                let estimate = rng.below(6) as f32;
                (estimate, estimate + rng.below(3) as f32)
            }
            2 => {
                let (x, y) = (rng.pick(&zeros), rng.pick(&zeros));
                if x <= y {
                    (x, y)
                } else {
                    (y, x)
                }
            }
            // and some that don't
            3 => (rng.mild(), rng.mild()),
            4 => (rng.below(6) as f32, rng.below(6) as f32),
            _ => (rng.pick(&zeros), rng.pick(&zeros)),
        };
        lists.0.push(estimate);
        lists.1.push(distance);
    }
    (lists.0, lists.1, kind < 3)
}

#[test]
fn the_third_demand_from_outside() {
    let mut rng = Rng::new(1);
    for round in 0..3_000 {
        let n = if round % 100 == 0 { 100 } else { rng.below(14) };
        let (estimates, distances, premise) = candidates(&mut rng, round % 6, n);
        assert!(!premise || estimates.iter().zip(&distances).all(|(estimate, distance)| estimate <= distance));
        demand_3(&estimates, &distances, premise);
    }
}

#[test]
fn searches_like_the_rusts() {
    let mut rng = Rng::new(2);
    for round in 0..6_000 {
        let n = if round % 100 == 0 { 200 } else { rng.below(20) };
        let (estimates, distances, _) = candidates(&mut rng, round % 6, n);
        let ours = search(&estimates, &distances);
        let theirs = rust::search(&estimates, &distances);
        assert!(
            rust::same_search(&estimates, &distances, &ours, &theirs),
            "estimates {estimates:?}\ndistances {distances:?}\nours {ours:?}\ntheirs {theirs:?}"
        );
        assert_eq!(ours, paper::rerank::search(&estimates, &distances));
    }
}

/// What `same_search` would miss it could not be trusted with.
#[test]
fn searches_that_differ_are_told_apart() {
    let (estimates, distances) = ([1.0, 2.0, 3.0], [2.5, 2.0, 9.0]);
    let run = search(&estimates, &distances);
    let mut other = run.clone();
    other.swap(2, 3);
    assert!(!rust::same_search(&estimates, &distances, &run, &other));
    let (estimates, distances) = ([1.0, 1.0, 3.0], [2.0, 2.0, 9.0]);
    let run = search(&estimates, &distances);
    assert!(rust::same_search(&estimates, &distances, &run, &run));
    let asked_early = [Ask(0), Ask(1), Ask(2), Give(0, 2.0), Give(1, 2.0), Give(2, 9.0)];
    assert!(!rust::same_search(&estimates, &distances, &run, &asked_early));
    let by_estimate = [Ask(0), Ask(1), Ask(2), Give(2, 9.0), Give(0, 2.0), Give(1, 2.0)];
    assert!(!rust::same_search(&estimates, &distances, &run, &by_estimate));
}

#[test]
fn the_most_places() {
    let mut rng = Rng::new(3);
    let (estimates, distances, _) = candidates(&mut rng, 0, 4_096);
    let ours = search(&estimates, &distances);
    assert!(rust::same_search(&estimates, &distances, &ours, &rust::search(&estimates, &distances)));
    demand_3_counts(&ours, 4_096);
    assert_eq!(try_next(&[0; 16_388], &[0; 16_388], &[0; 4_097], 16), 3);
}

fn demand_3_counts(events: &[Event], n: usize) {
    assert_eq!(events.iter().filter(|event| matches!(event, Ask(_))).count(), n);
    assert_eq!(events.iter().filter(|event| matches!(event, Give(..))).count(), n);
}

// ---- one answer

fn next(estimates: &[f32], distances: &[f32], marks: &[u8]) -> Vec<u32> {
    let mut out = [0xEE; 16];
    let mut marks = marks.to_vec();
    assert_eq!(rerank::next(&of_floats(estimates), &of_floats(distances), &mut marks, &mut out), 0);
    words(&out)
}

#[test]
fn lists_of_no_places() {
    assert_eq!(try_next(&[], &[], &[], 16), 0);
    assert_eq!(next(&[], &[], &[]), [0, 0, 0, 0]);
    assert_eq!(try_supply(&[], &[], &[], 0, 1.0, 4), 9);
}

#[test]
fn equal_numbers() {
    let give = |place: u32, distance: f32, count| [2, place, distance.to_bits(), count];
    assert_eq!(next(&[1.0, 1.0], &[0.0; 2], &[0, 0]), [1, 0, 0, 0], "lower place first");
    assert_eq!(next(&[0.0, -0.0], &[0.0; 2], &[0, 0]), [1, 0, 0, 0], "-0.0 equals +0.0");
    assert_eq!(next(&[9.0, 9.0], &[2.0, 2.0], &[1, 1]), give(0, 2.0, 2));
    assert_eq!(next(&[9.0, 9.0], &[0.0, -0.0], &[1, 1]), give(0, 0.0, 2));
    assert_eq!(next(&[9.0, 9.0], &[-0.0, 0.0], &[1, 1]), give(0, -0.0, 2), "bits are kept");
    assert_eq!(next(&[2.0, 0.0], &[0.0, 2.0], &[0, 1]), give(1, 2.0, 1), "strictly below");
    assert_eq!(next(&[-0.0, 9.0], &[9.0, 0.0], &[0, 1]), give(1, 0.0, 1), "-0.0 is not below +0.0");
    assert_eq!(next(&[f32::INFINITY, 0.0], &[0.0, f32::INFINITY], &[0, 1]), give(1, f32::INFINITY, 1));
    assert_eq!(next(&[f32::NEG_INFINITY], &[0.0], &[0]), [1, 0, 0, 0]);
}

/// Every list of three places over few numbers and every mark.
#[test]
fn every_small_state() {
    let numbers = [0.0, -0.0, 1.0];
    let states: Vec<(f32, f32, u8)> =
        numbers.iter().flat_map(|e| numbers.iter().flat_map(move |d| (0..3).map(move |m| (*e, *d, m)))).collect();
    for a in &states {
        for b in &states {
            for c in &states {
                let estimates = of_floats(&[a.0, b.0, c.0]);
                let distances = of_floats(&[a.1, b.1, c.1]);
                let mut marks = [a.2, b.2, c.2];
                let (old, mut out) = (marks, [0xEE; 16]);
                let want = paper::rerank::next(&estimates, &distances, &old, &out);
                let number = rerank::next(&estimates, &distances, &mut marks, &mut out);
                assert_eq!((number, vec![marks.to_vec(), out.to_vec()]), want);
                for place in 0..4 {
                    let (mut marks, mut lent, mut out) = (old, distances.clone(), [0xEE; 4]);
                    let want = paper::rerank::supply(&estimates, &distances, &old, place, -0.0, &out);
                    let number = rerank::supply(&estimates, &mut lent, &mut marks, place, -0.0, &mut out);
                    assert_eq!((number, vec![lent, marks.to_vec(), out.to_vec()]), want);
                }
            }
        }
    }
}

#[test]
fn a_supply_is_stored_bit_for_bit() {
    for distance in [0.0, -0.0, f32::INFINITY, f32::NEG_INFINITY, f32::from_bits(1), -1.0, f32::MAX] {
        let (mut distances, mut marks, mut out) = (vec![0xFF; 8], [2, 0], [0xEE; 4]);
        let estimates = of_floats(&[1.0, 1.0]);
        assert_eq!(rerank::supply(&estimates, &mut distances, &mut marks, 1, distance, &mut out), 0);
        assert_eq!(words(&distances), [u32::MAX, distance.to_bits()]);
        assert_eq!((marks, words(&out)), ([2, 1], vec![2]));
    }
}

// ---- what is refused

#[test]
fn bad_lengths_come_first() {
    let nan = [0xFF; 40];
    for places in [0usize, 1, 2, 8] {
        let n = 4 * places;
        let marks = vec![9; places];
        for wrong in [n + 1, n + 4, n.saturating_sub(1), n.saturating_sub(4)] {
            if wrong != n {
                assert_eq!(try_next(&nan[..wrong], &nan[..n], &marks, 16), 3);
                assert_eq!(try_next(&nan[..n], &nan[..wrong], &marks, 16), 3);
                assert_eq!(try_supply(&nan[..wrong], &nan[..n], &marks, 0, f32::NAN, 4), 3);
                assert_eq!(try_supply(&nan[..n], &nan[..wrong], &marks, 0, f32::NAN, 4), 3);
            }
        }
        for wrong in std::iter::once(places + 1).chain(places.checked_sub(1)) {
            assert_eq!(try_next(&nan[..n], &nan[..n], &vec![9; wrong], 16), 3);
            assert_eq!(try_supply(&nan[..n], &nan[..n], &vec![9; wrong], 0, f32::NAN, 4), 3);
        }
        for wrong in [0, 3, 4, 8, 12, 15, 17, 20] {
            assert_eq!(try_next(&nan[..n], &nan[..n], &marks, wrong), 3);
        }
        for wrong in [0, 3, 5, 8, 16] {
            assert_eq!(try_supply(&nan[..n], &nan[..n], &marks, 0, f32::NAN, wrong), 3);
        }
    }
    assert_eq!(try_supply(&[0; 16_388], &[0; 16_388], &[0; 4_097], 0, 1.0, 4), 3);
    assert_eq!(try_supply(&[0; 16_384], &[0; 16_384], &[0; 4_096], 0, 1.0, 4), 0);
}

/// A NaN estimate anywhere; a NaN distance where the place is asked for, and nowhere else; a NaN supplied.
#[test]
fn then_what_is_missing() {
    for n in [1usize, 2, 5] {
        for place in 0..n {
            for nan in NANS {
                for mark in [0, 1, 2, 3, 255] {
                    let mut marks = vec![0; n];
                    marks[place] = mark;
                    let mut with_nan = vec![1.0; n];
                    with_nan[place] = nan;
                    let (fine, bad) = (of_floats(&vec![1.0; n]), of_floats(&with_nan));
                    assert_eq!(try_next(&bad, &fine, &marks, 16), 4);
                    assert_eq!(try_supply(&bad, &fine, &marks, 0, 1.0, 4), 4);
                    let number = match mark {
                        1 => 4,
                        0 | 2 => 0,
                        _ => 5,
                    };
                    assert_eq!(try_next(&fine, &bad, &marks, 16), number);
                    // The place that is asked for now, or one that isn't where none is: a NaN that is held comes first.
                    let waits = marks.iter().position(|mark| *mark == 0).unwrap_or(n);
                    let supplied = if number == 0 && waits == n { 9 } else { number };
                    assert_eq!(try_supply(&fine, &bad, &marks, waits as u32, 2.0, 4), supplied);
                    // A NaN supplied is 4 wherever it is for, and before a bad mark.
                    for to in [0, place as u32, n as u32, u32::MAX] {
                        assert_eq!(try_supply(&fine, &fine, &marks, to, nan, 4), 4);
                    }
                }
            }
        }
    }
}

#[test]
fn then_a_mark_above_2() {
    for n in [1usize, 2, 5, 100] {
        for place in 0..n {
            for mark in [3, 4, 128, 255] {
                let mut marks = vec![1; n];
                marks[place] = mark;
                let list = of_floats(&vec![1.0; n]);
                assert_eq!(try_next(&list, &list, &marks, 16), 5);
                for to in [0, n as u32, u32::MAX] {
                    assert_eq!(try_supply(&list, &list, &marks, to, 1.0, 4), 5);
                }
            }
        }
    }
}

#[test]
fn then_a_place_that_is_not_asked_for() {
    let list = of_floats(&[3.0, 1.0, 2.0, 1.0]);
    let far = of_floats(&[9.0; 4]);
    for place in 0..4 {
        assert_eq!(try_supply(&list, &far, &[0, 0, 0, 0], place, 5.0, 4), if place == 1 { 0 } else { 9 });
        assert_eq!(try_supply(&list, &far, &[0, 1, 0, 0], place, 5.0, 4), if place == 3 { 0 } else { 9 });
        assert_eq!(try_supply(&list, &far, &[0, 2, 0, 2], place, 5.0, 4), if place == 2 { 0 } else { 9 });
        // A give is due: nothing is asked for now.
        assert_eq!(try_supply(&list, &of_floats(&[1.0; 4]), &[0, 1, 0, 0], place, 5.0, 4), 9);
        assert_eq!(try_supply(&list, &far, &[2, 2, 2, 2], place, 5.0, 4), 9);
        assert_eq!(try_supply(&list, &far, &[1, 1, 1, 1], place, 5.0, 4), 9);
    }
    for place in [4, 5, 4_096, 1 << 31, u32::MAX] {
        assert_eq!(try_supply(&list, &far, &[0, 0, 0, 0], place, 5.0, 4), 9);
    }
}

#[test]
fn null_and_lengths_past_32_bits() {
    let list = [0u8; 16];
    let (mut distances, mut marks, mut out) = ([0xEE; 16], [0x00; 4], [0xEE; 16]);
    let far = 1usize << 32;
    let l = list.as_ptr();
    let (d, m, o) = (distances.as_mut_ptr(), marks.as_mut_ptr(), out.as_mut_ptr());
    unsafe {
        assert_eq!(sys::lk_rerank_next(null(), 0, null(), 0, null_mut(), 0, null_mut(), 0), 3);
        assert_eq!(sys::lk_rerank_supply(null(), 0, null_mut(), 0, null_mut(), 0, 0, 1.0, null_mut(), 0), 3);
        assert_eq!(sys::lk_rerank_next(l, far + 4, l, 4, m, 1, o, 16), 3);
        assert_eq!(sys::lk_rerank_next(l, 4, l, far + 4, m, 1, o, 16), 3);
        assert_eq!(sys::lk_rerank_next(l, 4, l, 4, m, far + 1, o, 16), 3);
        assert_eq!(sys::lk_rerank_next(l, 4 * far + 4, l, 4 * far + 4, m, far + 1, o, 16), 3);
        assert_eq!(sys::lk_rerank_next(l, 4, l, 4, m, 1, o, far + 16), 3);
        assert_eq!(sys::lk_rerank_supply(l, far + 4, d, 4, m, 1, 0, 1.0, o, 4), 3);
        assert_eq!(sys::lk_rerank_supply(l, 4, d, far + 4, m, 1, 0, 1.0, o, 4), 3);
        assert_eq!(sys::lk_rerank_supply(l, 4, d, 4, m, far + 1, 0, 1.0, o, 4), 3);
        assert_eq!(sys::lk_rerank_supply(l, 4, d, 4, m, 1, 0, 1.0, o, far + 4), 3);
        // Lists of no places are lists: NULL will do for them.
        assert_eq!(sys::lk_rerank_supply(null(), 0, null_mut(), 0, null_mut(), 0, 0, 1.0, o, 4), 9);
        assert_eq!((distances, marks, out), ([0xEE; 16], [0; 4], [0xEE; 16]));
        assert_eq!(sys::lk_rerank_next(null(), 0, null(), 0, null_mut(), 0, o, 16), 0);
    }
    assert_eq!(out, [0; 16]);
}
