//! Module 4.

use super::{heading, Clock, Form, DIMS};
use crate::paper::code::size_of;
use crate::rng::Rng;
use crate::{bytes, code, rust};

/// A plain loop over the same bytes: factors copied, floats judged, sign bits gathered.
fn plain(factors: &[u8], vector: &[u8], code: &mut [u8]) -> bool {
    code[..16].copy_from_slice(factors);
    let mut missing = false;
    for (word, floats) in code[16..].chunks_exact_mut(8).zip(vector.chunks(256)) {
        let mut bits = 0u64;
        for (i, four) in floats.chunks_exact(4).enumerate() {
            let x = u32::from_le_bytes(four.try_into().unwrap());
            missing |= x & 0x7F80_0000 == 0x7F80_0000;
            bits |= u64::from(x >> 31 ^ 1) << i;
        }
        word.copy_from_slice(&bits.to_le_bytes());
    }
    missing
}

pub fn run(clock: &Clock) {
    heading("single code");
    let mut rng = Rng::new(1);
    for dims in DIMS {
        let vector = rng.mild_floats(dims as usize);
        let (factors, v) = (bytes::of_floats(&[1.0; 4]), bytes::of_floats(&vector));
        let (mut ours, mut theirs) = (vec![0; size_of(dims)], vec![0; size_of(dims)]);
        plain(&factors, &v, &mut theirs);
        assert_eq!(code::encode(dims, &factors, &v, &mut ours), 0);
        assert_eq!(ours, theirs);
        clock.row(
            &format!("encode, {dims} dims"),
            &[("plain loop", 1.5)],
            vec![
                Form::new("ours", || code::encode(dims, &factors, &v, &mut ours)),
                Form::new("plain loop", || plain(&factors, &v, &mut theirs)),
                Form::new("portable", || rust::code_encode(dims, [1.0; 4], &vector)),
            ],
        );
    }
}
