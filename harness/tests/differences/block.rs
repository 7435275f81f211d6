//! Module 5.

use harness::upstream::base::VectL2;
use harness::upstream::rabitq::RabitqQuantizer;
use harness::{block, rust};

/// Lane order: byte j of a group has lanes j and j + 16 here, and lanes 0, 8, 1, 9, .. and those + 16 there. At one
/// dimension with the bit of lane 1 alone, it is byte 1 here and byte 2 there.
#[test]
fn lane_order() {
    let mut codes = [0; 32 * 24];
    codes[24 + 16] = 1;
    let mut ours = [0xEE; 528];
    assert_eq!(block::pack(1, &codes, &mut ours), 0);
    let coded = std::array::from_fn(|lane| rust::coded([0.0; 4], vec![u8::from(lane == 1)]));
    let theirs = RabitqQuantizer::<VectL2>::new(1).fscan_encode(coded);
    assert_eq!(ours[512..], [0, 1, 0, 0, 0, 0, 0, 0, 0, 0, 0, 0, 0, 0, 0, 0]);
    assert_eq!(theirs[512..], [0, 0, 1, 0, 0, 0, 0, 0, 0, 0, 0, 0, 0, 0, 0, 0]);
    assert_eq!(rust::theirs(&ours), theirs);
    assert_eq!(rust::ours(&theirs), ours);
}

/// The permutation, lane by lane: it keeps halves, and lanes 0, 7, 8 and 15 show it whole.
#[test]
fn the_permutation() {
    for lane in 0..32 {
        let coded = std::array::from_fn(|k| rust::coded([0.0; 4], vec![u8::from(k == lane)]));
        let theirs = RabitqQuantizer::<VectL2>::new(1).fscan_encode(coded);
        let j = lane % 16;
        let byte = if j < 8 { 2 * j } else { 2 * (j - 8) + 1 };
        assert_eq!(theirs[512 + byte], if lane < 16 { 0x01 } else { 0x10 }, "lane {lane}");
        assert_eq!(rust::LANES[byte], j);
    }
}
