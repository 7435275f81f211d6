//! Searches to their end, over lists of every small length and some long ones.

use lintelkite::rerank::{next, supply};
use lintelkite::{Answer, Candidates, Hit, Mark, Refusal, Search};

/// A few bits of a sequence that is the same on every machine.
struct Dice(u64);

impl Dice {
    fn below(&mut self, n: u64) -> u64 {
        self.0 = self.0.wrapping_mul(6_364_136_223_846_793_005).wrapping_add(1_442_695_040_888_963_407);
        (self.0 >> 33) % n
    }
}

#[test]
fn the_papers_run() {
    let (estimates, exact) = ([1.0, 2.0, 3.0], [2.5, 2.0, 9.0]);
    let (mut distances, mut marks) = ([0.0; 3], [Mark::Waiting; 3]);
    let mut said = Vec::new();
    loop {
        let step = next(&estimates, &distances, &mut marks).unwrap();
        said.push(step.answer);
        match step.answer {
            Answer::Ask { place } => {
                let asked = supply(&estimates, &mut distances, &mut marks, place, exact[place]).unwrap();
                assert_eq!(asked, step.asked + 1);
            }
            Answer::Give { .. } => {}
            Answer::Done => break,
        }
    }
    let ask = |place| Answer::Ask { place };
    let give = |place: usize| Answer::Give { place, distance: exact[place] };
    assert_eq!(said, [ask(0), ask(1), give(1), give(0), ask(2), give(2), Answer::Done]);
}

#[test]
fn every_candidate_once_and_in_order() {
    let mut dice = Dice(1);
    for n in (0..40).chain([100, 1000, 4096]) {
        // Repeated ids and equal distances on purpose. No distance is below its estimate.
        let ids: Vec<u32> = (0..n).map(|_| dice.below(1 + n / 2) as u32).collect();
        let exact: Vec<f32> = (0..n).map(|_| dice.below(50) as f32).collect();
        let by_id = |id: u32| exact[id as usize];
        let bounds: Vec<f32> = ids.iter().map(|id| by_id(*id) - dice.below(20) as f32).collect();
        let mut search = Search::new(Candidates { ids: ids.clone(), bounds: bounds.clone() }).unwrap();
        let mut hits: Vec<Hit> = Vec::new();
        while let Some(hit) = search.next_hit(by_id).unwrap() {
            assert_eq!(hit.distance, by_id(hit.id));
            let place = (0..ids.len()).find(|i| (ids[*i], bounds[*i]) == (hit.id, hit.bound));
            assert!(place.is_some(), "{n} candidates, {hit:?}");
            let below = bounds.iter().filter(|bound| **bound < hit.distance).count();
            let not_above = bounds.iter().filter(|bound| **bound <= hit.distance).count();
            assert!(below <= search.asked() && search.asked() <= not_above, "{n} candidates, {hit:?}");
            hits.push(hit);
        }
        assert!(hits.windows(2).all(|two| two[0].distance <= two[1].distance));
        let mut given: Vec<u32> = hits.iter().map(|hit| hit.id).collect();
        let mut wanted = ids;
        given.sort();
        wanted.sort();
        assert_eq!(given, wanted);
        assert_eq!(search.asked(), n as usize);
    }
}

/// Once for each candidate, repeated ids too, and again after a NaN.
#[test]
fn how_often_a_distance_is_read() {
    let mut search = Search::new(Candidates { ids: vec![7, 7, 8], bounds: vec![0.0, 1.0, 1.0] }).unwrap();
    let mut read = Vec::new();
    let failed = search.next_hit(|id| {
        read.push(id);
        f32::NAN
    });
    assert_eq!(failed, Err(Refusal::Missing));
    let hits = search.run(|id| {
        read.push(id);
        5.0
    });
    assert_eq!(hits.unwrap().len(), 3);
    assert_eq!(read, [7, 7, 7, 8]);
}

#[test]
fn refusals() {
    let candidates = |places| Candidates { ids: vec![0; places], bounds: vec![0.0; places] };
    assert_eq!(Search::new(candidates(4097)).unwrap_err(), Refusal::BadLength);
    let unequal = Candidates { ids: vec![0; 2], bounds: vec![0.0; 3] };
    assert_eq!(Search::new(unequal).unwrap_err(), Refusal::BadLength);

    // A NaN from the reader is refused, and the same place is asked for again.
    let mut search = Search::new(candidates(1)).unwrap();
    assert_eq!(search.next_hit(|_| f32::NAN), Err(Refusal::Missing));
    assert_eq!(search.asked(), 0);
    assert_eq!(search.next_hit(|_| 3.0), Ok(Some(Hit { id: 0, bound: 0.0, distance: 3.0 })));

    let (mut distances, mut marks) = ([f32::NAN, 5.0], [Mark::Waiting, Mark::Given]);
    assert_eq!(supply(&[1.0, 1.0], &mut distances, &mut marks, 1, 2.0), Err(Refusal::NotAsked));
    assert_eq!(supply(&[1.0, 1.0], &mut distances, &mut marks, usize::MAX, 2.0), Err(Refusal::NotAsked));
    assert_eq!(supply(&[1.0, 1.0], &mut distances, &mut marks, 0, f32::NAN), Err(Refusal::Missing));
    assert_eq!(supply(&[1.0], &mut distances, &mut marks, 0, 2.0), Err(Refusal::BadLength));
    assert!(distances[0].is_nan() && marks == [Mark::Waiting, Mark::Given]);
    marks[0] = Mark::Asked;
    assert_eq!(next(&[1.0, 1.0], &distances, &mut marks), Err(Refusal::Missing));
}
