//! Module 9.

use super::{Answer, Call, Run};
use crate::draw::Mood;
use crate::paper::rerank::{self as paper, Answer as Said, ASKED, GIVEN, WAITING};
use crate::refusal::*;
use crate::rng::Rng;
use crate::rust::{self, Event};
use crate::{bytes, rerank};

pub const CALLS: &[Call] = &[
    Call {
        name: "lk_rerank_next",
        numbers: &[ACCEPTED, BAD_LENGTH, MISSING, BAD_VALUE],
        slips: &[
            "not-above",
            "higher-place-first",
            "asked-now-counted",
            "given-by-estimate",
            "always-done",
            "negative-zero-is-less",
            "asked-at-once",
            "first-128-places-alone",
            "waiting-nan-refused",
        ],
        go: next,
        weight: 4,
    },
    Call {
        name: "lk_rerank_supply",
        numbers: &[ACCEPTED, BAD_LENGTH, MISSING, BAD_VALUE, NOT_ASKED],
        slips: &[
            "mark-left",
            "any-waiting-place",
            "while-a-give-is-due",
            "nan-at-another-place-is-not-asked",
            "sign-of-zero-lost",
            "count-before",
        ],
        go: supply,
        weight: 4,
    },
    Call {
        name: "search to Done",
        numbers: &[ACCEPTED],
        slips: &["not-above", "given-by-estimate", "one-never-asked-for"],
        go: search,
        weight: 1,
    },
];

struct State {
    estimates: Vec<u8>,
    distances: Vec<u8>,
    marks: Vec<u8>,
}

impl State {
    fn floats(&self) -> (Vec<f32>, Vec<f32>) {
        (bytes::floats(&self.estimates), bytes::floats(&self.distances))
    }

    fn told(&self) -> String {
        let (estimates, distances) = self.floats();
        format!("estimates {estimates:?}, distances {distances:?}, marks {:?}", self.marks)
    }
}

/// Lists in some state of a search, or in no state that a search reaches. Few different numbers, so that many are
/// equal.
fn state(rng: &mut Rng, mood: &Mood) -> State {
    let n = match rng.below(40) {
        0 => 4_096,
        1 => rng.below(4_097),
        2..=6 => rng.below(3),
        _ => rng.below(24),
    };
    let kind = rng.below(4);
    let number = |rng: &mut Rng| match kind {
        0 => rng.pick(&[0.0, -0.0, 1.0, -1.0, f32::INFINITY, f32::NEG_INFINITY]),
        1 => rng.below(6) as f32,
        2 => loop {
            let x = rng.float();
            if !x.is_nan() {
                break x;
            }
        },
        _ => rng.mild(),
    };
    let mut estimates: Vec<f32> = (0..n).map(|_| number(rng)).collect();
    let mut distances: Vec<f32> = (0..n).map(|_| number(rng)).collect();
    let some = rng.pick(&[[0, 0, 0, 1], [0, 1, 1, 2], [0, 1, 2, 2], [1, 1, 1, 2], [0, 0, 0, 0], [2, 2, 2, 2]]);
    let mut marks: Vec<u8> = (0..n).map(|_| rng.pick(&some)).collect();
    // Distances of places that wait may be anything.
    for i in 0..n {
        if marks[i] != ASKED && rng.once_in(4) {
            distances[i] = rng.float();
        }
    }
    if n > 0 && mood.hurt(rng) {
        let at = rng.below(n);
        estimates[at] = rng.pick(&crate::draw::NANS);
    }
    if n > 0 && mood.hurt(rng) {
        let at = rng.below(n);
        distances[at] = rng.pick(&crate::draw::NANS);
    }
    if n > 0 && mood.hurt(rng) {
        let at = rng.below(n);
        marks[at] = rng.pick(&[3, 4, 128, 255]);
    }
    if mood.hurt(rng) && rng.once_in(3) {
        for list in [&mut estimates, &mut distances] {
            list.resize(4_097, 1.0);
        }
        marks.resize(4_097, 0);
    }
    let (mut estimates, mut distances) = (bytes::of_floats(&estimates), bytes::of_floats(&distances));
    for list in [&mut estimates, &mut distances, &mut marks] {
        let len = mood.length(rng, list.len());
        list.resize(len, 0);
    }
    State { estimates, distances, marks }
}

/// An accepted answer of `next`.
fn said(answer: Said, distances: &[u8], marks: &[u8]) -> Answer {
    let mut marks = marks.to_vec();
    let words = match answer {
        Said::Done => [0, 0, 0],
        Said::Ask(place) => [1, place as u32, 0],
        Said::Give(place) => {
            marks[place] = GIVEN;
            [2, place as u32, bytes::words(distances)[place]]
        }
    };
    let count = paper::asked(&marks);
    (ACCEPTED, vec![marks, bytes::of_words(&[words[0], words[1], words[2], count])])
}

/// The last place of least number among those with this mark, by an order of one's own.
fn last_least(numbers: &[f32], marks: &[u8], mark: u8, less: impl Fn(f32, f32) -> bool) -> Option<usize> {
    let places = (0..marks.len()).filter(|i| marks[*i] == mark);
    places.fold(None, |found, i| match found {
        Some(least) if less(numbers[least], numbers[i]) => found,
        _ => Some(i),
    })
}

fn next(run: &mut Run) {
    let mood = Mood::new(&mut run.rng);
    let state = state(&mut run.rng, &mood);
    let len = mood.length(&mut run.rng, 16);
    let olds = [state.marks.clone(), run.rng.bytes(len)];
    let want = paper::next(&state.estimates, &state.distances, &state.marks, &olds[1]);
    run.hold(
        || state.told(),
        &olds,
        |lent| match lent {
            [marks, out] => rerank::next(&state.estimates, &state.distances, marks, out),
            _ => unreachable!(),
        },
        want.clone(),
        || None,
        |slip| if want.0 == ACCEPTED { slipped_next(slip, &state, &olds) } else { want },
    );
}

/// What a broken copy says of lists that are to be accepted.
fn slipped_next(slip: &str, state: &State, olds: &[Vec<u8>]) -> Answer {
    let State { distances, marks, .. } = state;
    let (e, d) = state.floats();
    let nan = |i: usize| marks[i] != ASKED && d[i].is_nan();
    if slip == "waiting-nan-refused" && (0..marks.len()).any(nan) {
        return (MISSING, olds.to_vec());
    }
    let mut answer = said(slipped_rule(slip, &e, &d, marks), distances, marks);
    if slip == "asked-now-counted" && answer.1[1][0] == 1 {
        answer.1[1][12] = answer.1[1][12].wrapping_add(1);
    }
    answer
}

/// The rule with a slip in it, where the slip is one of the rule.
fn slipped_rule(slip: &str, e: &[f32], d: &[f32], marks: &[u8]) -> Said {
    let right = paper::rule(e, d, marks);
    match slip {
        "not-above" => {
            let only = |mark: u8| marks.iter().map(|m| if *m == mark { mark } else { GIVEN }).collect::<Vec<_>>();
            match (paper::rule(e, d, &only(WAITING)), paper::rule(e, d, &only(ASKED))) {
                (Said::Ask(waits), Said::Give(asked)) if e[waits] <= d[asked] => Said::Ask(waits),
                _ => right,
            }
        }
        "higher-place-first" => match right {
            Said::Ask(_) => Said::Ask(last_least(e, marks, WAITING, |x, y| x < y).unwrap()),
            Said::Give(_) => Said::Give(last_least(d, marks, ASKED, |x, y| x < y).unwrap()),
            Said::Done => Said::Done,
        },
        "given-by-estimate" => match right {
            Said::Give(place) => Said::Give(last_least(e, marks, ASKED, |x, y| x < y).unwrap_or(place)),
            _ => right,
        },
        "always-done" => Said::Done,
        "negative-zero-is-less" => {
            let total = |x: f32| if x == 0.0 && x.is_sign_negative() { -f32::from_bits(1) } else { x };
            let [e, d] = [e, d].map(|list| list.iter().map(|x| total(*x)).collect::<Vec<_>>());
            paper::rule(&e, &d, marks)
        }
        "first-128-places-alone" => {
            let far = |i: usize, mark: u8| if i < 128 { mark } else { GIVEN };
            let marks: Vec<u8> = marks.iter().enumerate().map(|(i, mark)| far(i, *mark)).collect();
            paper::rule(e, d, &marks)
        }
        "asked-at-once" => last_least(e, marks, WAITING, |x, y| x <= y).map_or(right, Said::Ask),
        _ => right,
    }
}

/// The place and the distance of a supply.
struct Supply {
    place: u32,
    distance: f32,
}

/// A place that is asked for or not, and a distance.
fn drawn_supply(rng: &mut Rng, mood: &Mood, state: &State) -> Supply {
    let (e, d) = state.floats();
    let n = state.marks.len();
    let place = match rng.below(8) {
        0 => rng.pick(&[n as u32, n as u32 + 1, 4_096, 1 << 31, u32::MAX]),
        1 => rng.below(n + 1) as u32,
        _ if e.len() == n && d.len() == n => match paper::rule(&e, &d, &state.marks) {
            Said::Ask(place) | Said::Give(place) => place as u32,
            Said::Done => 0,
        },
        _ => 0,
    };
    let distance = if mood.hurt(rng) {
        rng.pick(&crate::draw::NANS)
    } else {
        match rng.below(3) {
            0 => rng.pick(&[0.0, -0.0, f32::INFINITY, f32::NEG_INFINITY, f32::from_bits(1)]),
            _ => rng.finite(),
        }
    };
    Supply { place, distance }
}

fn supply(run: &mut Run) {
    let mood = Mood::new(&mut run.rng);
    let rng = &mut run.rng;
    let state = state(rng, &mood);
    let supply = drawn_supply(rng, &mood, &state);
    let Supply { place, distance } = supply;
    let len = mood.length(rng, 4);
    let olds = [state.distances.clone(), state.marks.clone(), rng.bytes(len)];
    let want = paper::supply(&state.estimates, &olds[0], &olds[1], place, distance, &olds[2]);
    run.hold(
        || format!("{}, place {place}, distance {distance:?}", state.told()),
        &olds,
        |lent| match lent {
            [distances, marks, out] => rerank::supply(&state.estimates, distances, marks, place, distance, out),
            _ => unreachable!(),
        },
        want.clone(),
        || None,
        |slip| slipped_supply(slip, &state, supply, &olds, want),
    );
}

/// What a broken copy says, where `want` is right.
fn slipped_supply(slip: &str, state: &State, supply: Supply, olds: &[Vec<u8>], want: Answer) -> Answer {
    let State { estimates, distances, marks } = state;
    let Supply { place, distance } = supply;
    let (number, (e, d)) = (want.0, state.floats());
    let waits = || marks.get(place as usize) == Some(&WAITING);
    let stored = |distance: f32, mark: u8, more: u32| -> Answer {
        let (mut distances, mut marks) = (distances.clone(), marks.clone());
        let count = paper::asked(&marks) + more;
        distances[4 * place as usize..][..4].copy_from_slice(&distance.to_bits().to_le_bytes());
        marks[place as usize] = mark;
        (ACCEPTED, vec![distances, marks, bytes::of_words(&[count])])
    };
    match slip {
        "mark-left" if number == ACCEPTED => stored(distance, WAITING, 0),
        "any-waiting-place" if number == NOT_ASKED && waits() => match paper::rule(&e, &d, marks) {
            Said::Ask(_) => stored(distance, ASKED, 1),
            _ => want,
        },
        "while-a-give-is-due" if number == NOT_ASKED && waits() => match paper::rule(&e, &d, marks) {
            Said::Give(_) => stored(distance, ASKED, 1),
            _ => want,
        },
        "nan-at-another-place-is-not-asked" if number == MISSING && distance.is_nan() => {
            match paper::supply(estimates, distances, marks, place, 0.0, &olds[2]).0 {
                NOT_ASKED => (NOT_ASKED, olds.to_vec()),
                _ => want,
            }
        }
        "sign-of-zero-lost" if number == ACCEPTED && distance == 0.0 => stored(0.0, ASKED, 1),
        "count-before" if number == ACCEPTED => stored(distance, ASKED, 0),
        _ => want,
    }
}

/// The events of a search in bytes: kind, place and distance of each.
fn event_bytes(events: &[Event]) -> Vec<u8> {
    let words = events.iter().flat_map(|event| match event {
        Event::Ask(place) => [1, *place, 0],
        Event::Give(place, distance) => [2, *place, distance.to_bits()],
    });
    bytes::of_words(&words.collect::<Vec<_>>())
}

/// Estimates and distances of one kind: with ties or without, with distances below their estimates or without.
fn candidates(rng: &mut Rng) -> (Vec<f32>, Vec<f32>) {
    let n = if rng.once_in(30) { rng.below(300) } else { rng.below(30) };
    let kind = rng.below(5);
    let candidate = |_| match kind {
        0 => (rng.below(5) as f32, rng.below(5) as f32),
        1 => {
            (rng.pick(&[0.0, -0.0, f32::INFINITY, f32::NEG_INFINITY, 1.0]), rng.pick(&[0.0, -0.0, 1.0, f32::INFINITY]))
        }
        2 => (rng.mild(), rng.mild()),
        _ => {
            let estimate = if kind == 3 { rng.mild() } else { rng.below(9) as f32 };
            (estimate, estimate + if kind == 3 { rng.mild().abs() } else { rng.below(4) as f32 })
        }
    };
    (0..n).map(candidate).unzip()
}

fn search(run: &mut Run) {
    let (estimates, distances) = candidates(&mut run.rng);
    let want = paper::search(&estimates, &distances);
    let olds = [vec![0; 24 * estimates.len()]];
    run.hold(
        || format!("estimates {estimates:?}, distances {distances:?}"),
        &olds,
        |lent| {
            let events = event_bytes(&rerank::search(&estimates, |place| distances[place as usize]));
            assert_eq!(events.len(), lent[0].len(), "a search that is not finished by n distances and n gives");
            lent[0].copy_from_slice(&events);
            ACCEPTED
        },
        (ACCEPTED, vec![event_bytes(&want)]),
        || {
            let theirs = rust::search(&estimates, &distances);
            let same = rust::same_search(&estimates, &distances, &want, &theirs);
            Some((ACCEPTED, vec![event_bytes(if same { &want } else { &theirs })]))
        },
        |slip| (ACCEPTED, vec![event_bytes(&slipped_search(slip, &estimates, &distances, want.clone()))]),
    );
}

/// What a broken copy does, where `events` are right.
fn slipped_search(slip: &str, estimates: &[f32], distances: &[f32], mut events: Vec<Event>) -> Vec<Event> {
    match slip {
        "not-above" => {
            // The asks of each estimate come one number too early.
            for i in 1..events.len() {
                if let (Event::Give(_, d), Event::Ask(place)) = (events[i - 1], events[i]) {
                    if estimates[place as usize] == d {
                        events.swap(i - 1, i);
                    }
                }
            }
        }
        "given-by-estimate" => {
            let mut places: Vec<u32> = (0..estimates.len() as u32).collect();
            places.sort_by(|x, y| estimates[*x as usize].total_cmp(&estimates[*y as usize]));
            let asked_and_given = |place: u32| [Event::Ask(place), Event::Give(place, distances[place as usize])];
            events = places.into_iter().flat_map(asked_and_given).collect();
        }
        _ => {
            if let Some(last) = events.iter().rposition(|event| matches!(event, Event::Ask(_))) {
                events[last] = Event::Ask(0);
            }
        }
    }
    events
}
