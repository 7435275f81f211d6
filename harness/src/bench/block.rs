//! Module 5. The Rust packs from bits in bytes, as its `code` leaves them; the library from single codes.

use super::{heading, Clock, Form, DIMS};
use crate::paper::{block::size_of, code};
use crate::rng::Rng;
use crate::upstream::base::VectL2;
use crate::upstream::rabitq::RabitqQuantizer;
use crate::{block, rust};

pub fn run(clock: &Clock) {
    heading("block");
    let mut rng = Rng::new(1);
    for dims in DIMS {
        let single = code::size_of(dims);
        let codes = rng.bytes(32 * single);
        let coded: [_; 32] = std::array::from_fn(|lane| {
            let bit = |i| u8::from(code::bit_at(&codes[lane * single..], i));
            rust::coded([1.0; 4], (0..dims as usize).map(bit).collect())
        });
        let (mut packed, mut lane) = (vec![0; size_of(dims)], vec![0; single]);
        clock.row(
            &format!("pack, {dims} dims"),
            if dims == 1_024 { &[("portable", 1.5)] } else { &[] },
            vec![
                Form::new("ours", || block::pack(dims, &codes, &mut packed)),
                Form::new("portable", || RabitqQuantizer::<VectL2>::new(dims).fscan_encode(coded.clone())),
            ],
        );
        let packed = packed.clone();
        clock.row(
            &format!("read a lane, {dims} dims"),
            &[],
            vec![Form::new("ours", || block::lane(dims, &packed, 17, &mut lane))],
        );
    }
}
