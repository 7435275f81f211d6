//! Each function refuses with the number that its input earns, and leaves what it was lent as it was.

mod common;

use common::refused;
use lintelkite::Refusal::*;
use lintelkite::{scalar, Metric, Width};

#[test]
fn encode_and_table() {
    for (vector, min, max, why) in [
        (vec![], vec![], vec![], BadDims),
        (vec![0.0; 65_536], vec![], vec![], BadDims),
        (vec![0.0; 2], vec![0.0; 1], vec![1.0; 2], BadLength),
        (vec![0.0; 2], vec![0.0; 2], vec![1.0; 3], BadLength),
        (vec![0.0, f32::NAN], vec![0.0; 2], vec![-1.0; 2], Missing),
        (vec![0.0; 2], vec![0.0, f32::NEG_INFINITY], vec![1.0; 2], Missing),
        (vec![0.0; 2], vec![0.0; 2], vec![1.0, f32::INFINITY], Missing),
        (vec![0.0; 2], vec![1.0; 2], vec![1.0, 0.5], BadValue),
    ] {
        refused(scalar::encode(Width::Four, &vector, &min, &max), why);
        refused(scalar::table(Metric::L2, Width::Two, &vector, &min, &max), why);
    }
    let (mut code, mut table) = ([0xEE; 2], [7.0; 9]);
    refused(scalar::encode_into(Width::Four, &[0.0; 2], &[0.0; 2], &[1.0; 2], &mut code), BadLength);
    refused(scalar::table_into(Metric::Dot, Width::Two, &[0.0; 2], &[0.0; 2], &[1.0; 2], &mut table), BadLength);
    assert_eq!((code, table), ([0xEE; 2], [7.0; 9]));
}

#[test]
fn distance() {
    refused(scalar::distance(Metric::L2, Width::Two, 0, &[], &[]), BadDims);
    refused(scalar::distance(Metric::L2, Width::Two, 2, &[0.0; 7], &[0]), BadLength);
    refused(scalar::distance(Metric::L2, Width::Two, 2, &[0.0; 8], &[0; 2]), BadLength);
    refused(scalar::distance(Metric::L2, Width::Two, 2, &[f32::NAN; 8], &[0]), NoEstimate);
}
