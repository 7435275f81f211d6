//! Module 9.

use harness::rust::Event::{Ask, Give};
use harness::{rerank, rust};

/// Order among equal distances is the heap's there, and the lower place goes first here.
#[test]
fn order_among_equal_distances() {
    let (estimates, distances) = ([1.0, 0.0], [2.0, 2.0]);
    let ours = rerank::search(&estimates, |place| distances[place as usize]);
    assert_eq!(ours, [Ask(1), Ask(0), Give(0, 2.0), Give(1, 2.0)]);
    let theirs = rust::search(&estimates, &distances);
    assert_eq!(theirs, [Ask(1), Ask(0), Give(1, 2.0), Give(0, 2.0)]);
    assert!(rust::same_search(&estimates, &distances, &ours, &theirs));
}

/// The Rust takes any number of candidates; here there are at most 4,096.
#[test]
fn more_than_4096_candidates() {
    let estimates = vec![0.0; 4_097];
    assert_eq!(rust::search(&estimates, &estimates).len(), 2 * 4_097);
    let (mut marks, mut out) = (vec![0; 4_097], [0xEE; 16]);
    assert_eq!(rerank::next(&[0; 4 * 4_097], &[0; 4 * 4_097], &mut marks, &mut out), 3);
    assert_eq!(out, [0xEE; 16]);
}

/// So it is among equal estimates.
#[test]
fn order_among_equal_estimates() {
    let (estimates, distances) = ([1.0, 0.0, 0.0], [1.0, 0.0, 0.0]);
    let ours = rerank::search(&estimates, |place| distances[place as usize]);
    assert_eq!(ours, [Ask(1), Give(1, 0.0), Ask(2), Give(2, 0.0), Ask(0), Give(0, 1.0)]);
    let theirs = rust::search(&estimates, &distances);
    assert_eq!(theirs, [Ask(2), Give(2, 0.0), Ask(1), Give(1, 0.0), Ask(0), Give(0, 1.0)]);
    assert!(rust::same_search(&estimates, &distances, &ours, &theirs));
}
