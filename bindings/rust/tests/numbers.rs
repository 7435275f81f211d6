//! The numbers of this crate are those of include/lintelkite.h.

use lintelkite::{Answer, Layout, Mark, Metric, Refusal};

fn stands(entry: String) {
    let header = include_str!("../../../include/lintelkite.h");
    let found = header.lines().flat_map(|line| line.split([',', '{', '}', '/'])).any(|piece| piece.trim() == entry);
    assert!(found, "{entry} does not stand in the header");
}

#[test]
fn refusals() {
    for refusal in Refusal::ALL {
        stands(format!("LK_{} = {}", refusal.name(), refusal.number()));
        assert_eq!(Refusal::of_number(refusal.number()), Some(refusal));
    }
}

#[test]
fn metrics() {
    stands(format!("LK_L2 = {}", Metric::L2.number()));
    stands(format!("LK_DOT = {}", Metric::Dot.number()));
}

#[test]
fn layouts_and_marks() {
    stands(format!("LK_SINGLE = {}", Layout::Single.number()));
    stands(format!("LK_BLOCKS = {}", Layout::Blocks.number()));
    stands(format!("LK_WAITING = {}", Mark::Waiting.number()));
    stands(format!("LK_ASKED = {}", Mark::Asked.number()));
    stands(format!("LK_GIVEN = {}", Mark::Given.number()));
}

/// `rerank::next` tells its answers apart by these.
#[test]
fn answers() {
    stands(format!("LK_DONE = {}", Answer::Done.number()));
    stands(format!("LK_ASK = {}", Answer::Ask { place: 0 }.number()));
    stands(format!("LK_GIVE = {}", Answer::Give { place: 0, distance: 0.0 }.number()));
}
