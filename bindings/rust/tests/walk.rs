//! Each function refuses with the number that its input earns, and leaves what it was lent as it was.

mod common;

use common::refused;
use lintelkite::walk::{walk, walk_into, Candidates};
use lintelkite::Refusal::*;
use lintelkite::{Layout, Mark, Metric, Query, Records};

#[test]
fn ranges() {
    let query = Query { dis_v_2: 4.0, b: 0.0, k: 1.0, codes: &[1, 15] };
    let bytes = [0; 528 * 3];
    let records = Records { layout: Layout::Blocks, bytes: &bytes, n: 70 };
    let ids = |range| walk(Metric::L2, &query, &records, range).map(|found| found.ids);
    assert_eq!(ids(31..33), Ok(vec![31, 32]));
    for (start, end) in [(0, 0), (5, 5), (64, 32), (u32::MAX, 0)] {
        assert_eq!(ids(start..end), Ok(vec![]));
    }
    refused(ids(69..71), OutOfRange);
    refused(ids(0..u32::MAX), OutOfRange);
    refused(walk(Metric::L2, &query, &Records { n: 64, ..records }, 0..1), BadLength);
    refused(walk(Metric::L2, &query, &Records { n: 1_048_577, ..records }, 0..1), BadLength);
    refused(walk(Metric::L2, &Query { dis_v_2: -1.0, ..query }, &records, 0..0), BadValue);
    let none = Records { layout: Layout::Single, bytes: &[], n: 0 };
    assert_eq!(walk(Metric::Dot, &query, &none, 3..3), Ok(Candidates::default()));
}

#[test]
fn lists() {
    let query = Query { dis_v_2: 4.0, b: 0.0, k: 1.0, codes: &[1] };
    let mut bytes = vec![0; 24 * 4097];
    bytes[24 * 4000 + 12..24 * 4000 + 16].fill(0xFF);
    let records = Records { layout: Layout::Single, bytes: &bytes, n: 4097 };
    refused(walk(Metric::L2, &query, &records, 0..4097), NoRoom);
    refused(walk(Metric::L2, &query, &records, 3999..4001), NoEstimate);
    let (mut ids, mut bounds, mut marks) = ([7; 2], [7.0; 2], [Mark::Given; 2]);
    refused(walk_into(Metric::L2, &query, &records, 0..3, &mut ids, &mut bounds, &mut marks), NoRoom);
    refused(walk_into(Metric::L2, &query, &records, 4000..4001, &mut ids, &mut bounds, &mut marks), NoEstimate);
    refused(walk_into(Metric::L2, &query, &records, 0..1, &mut ids, &mut bounds[1..], &mut marks), BadLength);
    assert_eq!((ids, bounds, marks), ([7; 2], [7.0; 2], [Mark::Given; 2]));
}
