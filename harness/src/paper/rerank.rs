//! Module 9. Two places matter: the waiting one that may be nearest, by its estimate, and the nearest one asked for, by
//! its distance. The first is asked for where it may be nearer than the second or there is no second. Otherwise the
//! second is given. Where there is neither, all is done.

use super::first;
use crate::bytes;
use crate::refusal::*;
use crate::rust::Event;

pub const MOST_PLACES: usize = 4_096;

pub const WAITING: u8 = 0;
pub const ASKED: u8 = 1;
pub const GIVEN: u8 = 2;

#[derive(Debug, Clone, Copy, PartialEq)]
pub enum Answer {
    Done,
    Ask(usize),
    Give(usize),
}

/// The first place of least number among those with this mark.
fn least(numbers: &[f32], marks: &[u8], mark: u8) -> Option<usize> {
    let mut found: Option<usize> = None;
    for i in 0..marks.len() {
        if marks[i] == mark && found.is_none_or(|least| numbers[i] < numbers[least]) {
            found = Some(i);
        }
    }
    found
}

/// The rule, on lists that are free of NaN where it matters.
pub fn rule(estimates: &[f32], distances: &[f32], marks: &[u8]) -> Answer {
    match (least(estimates, marks, WAITING), least(distances, marks, ASKED)) {
        (Some(waits), None) => Answer::Ask(waits),
        (Some(waits), Some(asked)) if estimates[waits] < distances[asked] => Answer::Ask(waits),
        (_, Some(asked)) => Answer::Give(asked),
        (None, None) => Answer::Done,
    }
}

/// The count that an accepted call reports: the places that wait no longer.
pub fn asked(marks: &[u8]) -> u32 {
    marks.iter().filter(|mark| **mark == ASKED || **mark == GIVEN).count() as u32
}

fn bad_lengths(estimates: &[u8], distances: &[u8], marks: &[u8]) -> bool {
    marks.len() > MOST_PLACES || estimates.len() != 4 * marks.len() || distances.len() != 4 * marks.len()
}

fn nan(estimates: &[u8], distances: &[u8], marks: &[u8]) -> bool {
    bytes::floats(estimates).iter().any(|x| x.is_nan())
        || bytes::floats(distances).iter().zip(marks).any(|(x, mark)| *mark == ASKED && x.is_nan())
}

fn rule_of(estimates: &[u8], distances: &[u8], marks: &[u8]) -> Answer {
    rule(&bytes::floats(estimates), &bytes::floats(distances), marks)
}

/// The buffers are marks and out: the answer, the place, the distance, the count.
pub fn next(estimates: &[u8], distances: &[u8], marks: &[u8], out: &[u8]) -> (u32, Vec<Vec<u8>>) {
    let number = first(&[
        (BAD_LENGTH, &|| bad_lengths(estimates, distances, marks) || out.len() != 16),
        (MISSING, &|| nan(estimates, distances, marks)),
        (BAD_VALUE, &|| marks.iter().any(|mark| *mark > GIVEN)),
    ]);
    if number != ACCEPTED {
        return (number, vec![marks.to_vec(), out.to_vec()]);
    }
    let mut marks = marks.to_vec();
    let (answer, place, distance) = match rule_of(estimates, distances, &marks) {
        Answer::Done => (0, 0, 0),
        Answer::Ask(place) => (1, place, 0),
        Answer::Give(place) => {
            marks[place] = GIVEN;
            (2, place, bytes::words(distances)[place])
        }
    };
    let out = bytes::of_words(&[answer, place as u32, distance, asked(&marks)]);
    (number, vec![marks, out])
}

/// The buffers are distances, marks and out: the count.
pub fn supply(
    estimates: &[u8],
    distances: &[u8],
    marks: &[u8],
    place: u32,
    distance: f32,
    out: &[u8],
) -> (u32, Vec<Vec<u8>>) {
    let number = first(&[
        (BAD_LENGTH, &|| bad_lengths(estimates, distances, marks) || out.len() != 4),
        (MISSING, &|| distance.is_nan() || nan(estimates, distances, marks)),
        (BAD_VALUE, &|| marks.iter().any(|mark| *mark > GIVEN)),
        (NOT_ASKED, &|| rule_of(estimates, distances, marks) != Answer::Ask(place as usize)),
    ]);
    if number != ACCEPTED {
        return (number, vec![distances.to_vec(), marks.to_vec(), out.to_vec()]);
    }
    let (mut distances, mut marks, place) = (distances.to_vec(), marks.to_vec(), place as usize);
    distances[4 * place..4 * place + 4].copy_from_slice(&distance.to_bits().to_le_bytes());
    marks[place] = ASKED;
    let out = bytes::of_words(&[asked(&marks)]);
    (number, vec![distances, marks, out])
}

/// A whole search over fresh lists: each place asked for gets its distance.
pub fn search(estimates: &[f32], distances: &[f32]) -> Vec<Event> {
    let mut marks = vec![WAITING; estimates.len()];
    let mut events = Vec::new();
    loop {
        match rule(estimates, distances, &marks) {
            Answer::Done => return events,
            Answer::Ask(place) => {
                marks[place] = ASKED;
                events.push(Event::Ask(place as u32));
            }
            Answer::Give(place) => {
                marks[place] = GIVEN;
                events.push(Event::Give(place as u32, distances[place]));
            }
        }
    }
}
