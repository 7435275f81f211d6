//! Module 9, reranker: the calls on slices.

use crate::refusal::ACCEPTED;
use crate::rust::Event;
use crate::{bytes, sys};

pub fn next(estimates: &[u8], distances: &[u8], marks: &mut [u8], out: &mut [u8]) -> u32 {
    unsafe {
        sys::lk_rerank_next(
            estimates.as_ptr(),
            estimates.len(),
            distances.as_ptr(),
            distances.len(),
            marks.as_mut_ptr(),
            marks.len(),
            out.as_mut_ptr(),
            out.len(),
        )
    }
}

pub fn supply(
    estimates: &[u8],
    distances: &mut [u8],
    marks: &mut [u8],
    place: u32,
    distance: f32,
    out: &mut [u8],
) -> u32 {
    unsafe {
        sys::lk_rerank_supply(
            estimates.as_ptr(),
            estimates.len(),
            distances.as_mut_ptr(),
            distances.len(),
            marks.as_mut_ptr(),
            marks.len(),
            place,
            distance,
            out.as_mut_ptr(),
            out.len(),
        )
    }
}

/// Runs a whole search over fresh lists to Done. `distance` is asked for the exact distance of a place.
pub fn search(estimates: &[f32], mut distance: impl FnMut(u32) -> f32) -> Vec<Event> {
    let n = estimates.len();
    let estimates = bytes::of_floats(estimates);
    let (mut distances, mut marks) = (vec![0xFF; 4 * n], vec![0; n]);
    let mut events = Vec::new();
    loop {
        let (mut out, mut count) = ([0; 16], [0; 4]);
        assert_eq!(next(&estimates, &distances, &mut marks, &mut out), ACCEPTED);
        let out = bytes::words(&out);
        match out[0] {
            0 => return events,
            1 => {
                events.push(Event::Ask(out[1]));
                let exact = distance(out[1]);
                assert_eq!(supply(&estimates, &mut distances, &mut marks, out[1], exact, &mut count), ACCEPTED);
            }
            _ => events.push(Event::Give(out[1], f32::from_bits(out[2]))),
        }
    }
}
