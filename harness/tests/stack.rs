//! No call takes more stack than include/lintelkite.h says.

use harness::bytes::of_floats;
use harness::draw::{FINITE, NOT_FINITE};
use harness::paper::digits::{size_of, WIDTHS};
use harness::paper::walk::records_len;
use harness::paper::{block, code};
use harness::rng::Rng;
use harness::stack::{taken, Argument};
use harness::{header, sys};
use std::collections::BTreeMap;
use std::hint::black_box;

/// The most stack that each call was seen to take.
#[derive(Default)]
struct Seen(BTreeMap<String, usize>);

impl Seen {
    /// Makes a call that is to give this number.
    fn call(&mut self, name: &str, function: *const (), arguments: Vec<Argument>, want: u32) {
        assert_eq!(types(&arguments), declared(name), "the parameters of {name}");
        // Sound: the arguments are of the types that the header declares.
        let (number, bytes) = unsafe { taken(function, &arguments) };
        assert_eq!(number, want, "{name}");
        let most = self.0.entry(name.to_string()).or_default();
        *most = bytes.max(*most);
    }

    /// The calls that took more than the header says.
    fn too_much(&self) -> Vec<String> {
        let over = self.0.iter().filter(|(name, bytes)| **bytes > header::stack(name));
        over.map(|(name, bytes)| format!("{name} takes {bytes} bytes, of {}", header::stack(name))).collect()
    }
}

fn types(arguments: &[Argument]) -> Vec<&str> {
    let type_of = |argument: &Argument| match argument {
        Argument::Number(_) => vec!["uint32_t"],
        Argument::Float(_) => vec!["float"],
        Argument::Buffer(_) => vec!["uint8_t *", "size_t"],
    };
    arguments.iter().flat_map(type_of).collect()
}

fn declared(name: &str) -> Vec<String> {
    let (_, parameters) = header::functions().into_iter().find(|function| function.0 == name).expect("a call");
    parameters.into_iter().map(|(_, kind)| kind.replace("const ", "")).collect()
}

/// `call!(seen, want; lk_name(argument, ..))`.
macro_rules! call {
    ($seen:ident, $want:expr; $name:ident($($argument:expr),*)) => {
        $seen.call(stringify!($name), sys::$name as *const (), vec![$($argument.into()),*], $want)
    };
}

/// A buffer to be written.
fn room(len: usize) -> Argument {
    Argument::Buffer(vec![0xEE; len])
}

fn digits_and_scalar_codes(seen: &mut Seen, rng: &mut Rng) {
    for dims in [1, 7, 300, 4_369] {
        let n = dims as usize;
        let [vector, low, high] = [rng.mild_floats(n), vec![-0.5; n], vec![0.5; n]].map(|list| of_floats(&list));
        for bits in WIDTHS {
            let (size, table) = (size_of(dims, bits), of_floats(&rng.mild_floats(n << bits)));
            let packed = rng.bytes(size);
            call!(seen, 0; lk_digits_size(dims, bits, room(4)));
            call!(seen, 0; lk_digits_pack(dims, bits, &vec![1; n][..], room(size)));
            call!(seen, 0; lk_digits_read(dims, bits, &packed[..], dims - 1, room(4)));
            call!(seen, 0; lk_scalar_encode(dims, bits, &vector[..], &low[..], &high[..], room(size)));
            for metric in [1, 2] {
                let entries = room(table.len());
                call!(seen, 0; lk_scalar_table(metric, dims, bits, &vector[..], &low[..], &high[..], entries));
                call!(seen, 0; lk_scalar_distance(metric, dims, bits, &table[..], &packed[..], room(4)));
            }
        }
    }
}

fn roots(seen: &mut Seen) {
    for x in FINITE.into_iter().chain(NOT_FINITE) {
        call!(seen, if x.is_nan() || x < 0.0 { 4 } else { 0 }; lk_root(x, room(4)));
    }
}

/// Codes of any bits behind factors that are zeros, floats of a usual size, or NaNs. Only the last have no estimate.
fn codes_to_walks(seen: &mut Seen, rng: &mut Rng) {
    for dims in [1, 3, 64, 65, 128, 300, 1_024, 4_368, 4_369] {
        let n = dims as usize;
        call!(seen, 0; lk_code_size(dims, room(4)));
        call!(seen, 0; lk_block_size(dims, room(4)));
        let vector = of_floats(&rng.mild_floats(n));
        call!(seen, 0; lk_code_encode(dims, &[0xFF; 16][..], &vector[..], room(code::size_of(dims))));
        for factor in [0.0, 0.75, f32::NAN] {
            let singles: Vec<u8> =
                (0..32).flat_map(|_| [of_floats(&[factor; 4]), rng.bytes(code::size_of(dims) - 16)].concat()).collect();
            let (single, packed) = (&singles[..code::size_of(dims)], &block::packed(dims, &singles)[..]);
            call!(seen, 0; lk_code_bit(dims, single, dims - 1, room(4)));
            call!(seen, 0; lk_block_pack(dims, &singles[..], room(block::size_of(dims))));
            call!(seen, 0; lk_block_lane(dims, packed, 31, room(code::size_of(dims))));
            let query = &rng.query(n)[..];
            call!(seen, 0; lk_query_sum(dims, query, room(4)));
            call!(seen, 0; lk_code_sum(dims, query, single, room(4)));
            call!(seen, 0; lk_block_sums(dims, query, packed, room(128)));
            let want = if factor.is_nan() { 8 } else { 0 };
            for metric in [1, 2] {
                call!(seen, want; lk_code_rough(metric, dims, 2.0, 0.5, 0.25, query, single, room(4)));
                call!(seen, want; lk_code_lower_bound(metric, dims, 2.0, 0.5, 0.25, query, single, room(4)));
                call!(seen, 0; lk_block_rough(metric, dims, 2.0, 0.5, 0.25, query, packed, room(128)));
                call!(seen, 0; lk_block_lower_bounds(metric, dims, 2.0, 0.5, 0.25, query, packed, room(128)));
                for (layout, records) in [(1, &singles[..]), (2, packed)] {
                    let records = &records.repeat(2)[..];
                    assert_eq!(records.len(), records_len(layout, dims, 64));
                    call!(seen, want; lk_walk(
                        metric, layout, dims, 2.0, 0.5, 0.25, query, records, 64, 3, 60,
                        room(4 * 4_096), room(4 * 4_096), room(4_096), room(4)
                    ));
                }
            }
        }
    }
}

fn rerankings(seen: &mut Seen, rng: &mut Rng) {
    for places in [0, 1, 5, 127, 128, 129, 4_096] {
        for marks in [[0, 0], [0, 1], [1, 1], [2, 2]] {
            let [estimates, distances] = [0, 1].map(|_| of_floats(&rng.mild_floats(places)));
            let marks: Vec<u8> = (0..places).map(|_| rng.pick(&marks)).collect();
            call!(seen, 0; lk_rerank_next(&estimates[..], &distances[..], &marks[..], room(16)));
            // Place 0 waits with the least estimate and is asked for, where there is one.
            let (mut estimates, mut marks) = (estimates, marks);
            if places > 0 {
                estimates[..4].copy_from_slice(&of_floats(&[-9.0]));
                marks[0] = 0;
            }
            let want = if places > 0 { 0 } else { 9 };
            call!(seen, want; lk_rerank_supply(&estimates[..], &distances[..], &marks[..], 0, 0.5, room(4)));
        }
    }
}

#[test]
fn every_call_keeps_to_the_header() {
    let (mut seen, mut rng) = (Seen::default(), Rng::new(1));
    digits_and_scalar_codes(&mut seen, &mut rng);
    roots(&mut seen);
    codes_to_walks(&mut seen, &mut rng);
    rerankings(&mut seen, &mut rng);
    for (name, bytes) in &seen.0 {
        println!("{name}: {bytes} bytes");
    }
    assert_eq!(seen.too_much(), Vec::<String>::new());
    let mut names: Vec<String> = header::functions().into_iter().map(|function| function.0).collect();
    names.sort();
    assert_eq!(seen.0.into_keys().collect::<Vec<_>>(), names, "every call of the header");
}

// ---- the measure itself

/// Fills a frame of N bytes.
extern "C" fn frame<const N: usize, const BYTE: u8>() -> u32 {
    black_box(&mut [BYTE; N]);
    7
}

/// The figure and the frame agree but for what the function keeps beside its bytes. A frame of any paint is seen.
#[test]
fn a_frame_is_measured() {
    for (function, n) in [
        (frame::<1, 0> as *const (), 1),
        (frame::<4_096, 0> as *const (), 4_096),
        (frame::<4_096, 0xA5> as *const (), 4_096),
        (frame::<4_096, 0x5A> as *const (), 4_096),
        (frame::<16_384, 0> as *const (), 16_384),
        (frame::<100_000, 0> as *const (), 100_000),
    ] {
        let (number, bytes) = unsafe { taken(function, &[]) };
        assert_eq!(number, 7);
        assert!(n < bytes && bytes < n + 512, "{bytes} bytes for a frame of {n}");
    }
}

/// Stands in for lk_root, with a frame of N bytes.
extern "C" fn root_with_a_frame<const N: usize>(_x: f32, _out: *mut u8, _out_len: usize) -> u32 {
    black_box(&mut [0u8; N]);
    0
}

#[test]
fn a_frame_that_is_too_large_is_told() {
    let told = |function: *const ()| {
        let mut seen = Seen::default();
        seen.call("lk_root", function, vec![1f32.into(), room(4)], 0);
        seen.too_much()
    };
    assert_eq!(told(root_with_a_frame::<64> as *const ()), Vec::<String>::new());
    for function in [root_with_a_frame::<4_096> as *const (), root_with_a_frame::<16_384> as *const ()] {
        assert_eq!(told(function).len(), 1);
        assert!(told(function)[0].starts_with("lk_root takes "));
    }
}
