//! Writes the list of answers that the program `vectors` replays: `cargo run --release --bin answers > ../crates/vectors/data/answers`,
//! from harness/.
//!
//! First the paper's numbers, typed from it. Then what the Rust that is ported answers (harness/upstream, called by
//! `harness::rust`) on random input from a fixed seed. Nothing here calls the library.

use harness::bytes::{of_floats, of_words};
use harness::paper::estimate::{Asked, Query};
use harness::paper::walk::Walk;
use harness::rng::Rng;
use harness::rust;

/// Bytes that stood in a buffer before the call.
const OLD: u8 = 0xEE;

fn hex(bytes: &[u8]) -> String {
    format!("[{}]", bytes.iter().map(|byte| format!("{byte:02x}")).collect::<String>())
}

fn bits(float: f32) -> String {
    format!("0x{:08x}", float.to_bits())
}

fn old(n: usize) -> String {
    hex(&vec![OLD; n])
}

/// A call that writes one buffer and is accepted.
fn accepted(call: &str, arguments: &[String], written: &[u8]) {
    println!("{call} {} {} = 0 {}", arguments.join(" "), old(written.len()), hex(written));
}

fn title(text: &str) {
    println!("\n# {text}");
}

fn numbers(numbers: &[u32]) -> Vec<String> {
    numbers.iter().map(|number| number.to_string()).collect()
}

/// A single code of these factors whose words are these bytes.
fn code(factors: [f32; 4], words: &[u8]) -> Vec<u8> {
    [of_floats(&factors), words.to_vec()].concat()
}

// ---- the paper

fn the_paper() {
    title("The paper's numbers: those that are not proved in its table of rows, and for the digits two that are.");
    println!("# width 4, codes 1, 2, 3: bytes 0x21, 0x03; width 2, codes 1, 2, 3, 0, 1: 0x39, 0x01; and read back");
    for (bits, codes, packed) in [("4", vec![1u8, 2, 3], [0x21u8, 0x03]), ("2", vec![1, 2, 3, 0, 1], [0x39, 0x01])] {
        let shape = vec![codes.len().to_string(), bits.to_string()];
        accepted("digits_size", &shape, &of_words(&[2]));
        accepted("digits_pack", &[shape.clone(), vec![hex(&codes)]].concat(), &packed);
        for (i, code) in codes.iter().enumerate() {
            let arguments = [shape.clone(), vec![hex(&packed), i.to_string()]].concat();
            accepted("digits_read", &arguments, &of_words(&[u32::from(*code)]));
        }
    }
    println!("# dims 4,370: refusal 1");
    println!("code_size 4370 {} = 1 {}", old(4), old(4));
    println!("block_size 4370 {} = 1 {}", old(4), old(4));
    println!("# 4,369 codes of 15, all bits set: 65,535. The pad bits are set too, and ignored.");
    let full = hex(&[15; 4369]);
    accepted("query_sum", &["4369".into(), full.clone()], &of_words(&[65_535]));
    let ones = code([0.0; 4], &[0xFF; 552]);
    accepted("code_sum", &["4369".into(), full.clone(), hex(&ones)], &of_words(&[65_535]));
    let ones = [vec![0; 512], vec![0xFF; 16 * 1093]].concat();
    accepted("block_sums", &["4369".into(), full, hex(&ones)], &of_words(&[65_535; 32]));
    println!("# dis_u_2 1, dis_v_2 4, b 0, k 1, ppc 0, ip -0.5, S 26, Q 27: L2 rough -7.5, dot rough -6.25");
    let query = [hex(&[3, 0, 15, 8, 1]), hex(&code([1.0, 0.0, -0.5, 0.0], &[13, 0, 0, 0, 0, 0, 0, 0]))];
    for (metric, rough) in [("1", -7.5f32), ("2", -6.25)] {
        let mut arguments = vec![metric.into(), "5".into(), bits(4.0), bits(0.0), bits(1.0)];
        arguments.extend(query.clone());
        accepted("code_rough", &arguments, &of_floats(&[rough]));
    }
    println!("# ranges 31..33: ids 31, 32. 0..0, 5..5, 64..32: none. Records of zeros, whose L2 bound is dis_v_2.");
    let records = |layout: u32| vec![0u8; if layout == 1 { 64 * 24 } else { 2 * 528 }];
    for layout in [1, 2] {
        for (start, end, ids) in [(31, 33, vec![31, 32]), (0, 0, vec![]), (5, 5, vec![]), (64, 32, vec![])] {
            let mut lists = [vec![OLD; 12], vec![OLD; 12], vec![OLD; 3]];
            let before = lists.clone().map(|list| hex(&list)).join(" ");
            lists[0][..4 * ids.len()].copy_from_slice(&of_words(&ids));
            lists[1][..4 * ids.len()].copy_from_slice(&of_floats(&vec![4.0; ids.len()]));
            lists[2][..ids.len()].fill(0);
            println!(
                "walk 1 {layout} 1 {} {} {} {} {} 64 {start} {end} {before} {} = 0 {} {}",
                bits(4.0),
                bits(0.0),
                bits(1.0),
                hex(&[3]),
                hex(&records(layout)),
                old(4),
                lists.map(|list| hex(&list)).join(" "),
                hex(&of_words(&[ids.len() as u32]))
            );
        }
    }
    println!("# min = max = 7: 6 gives 0, 7 gives 0, 8 gives 15");
    let seven = hex(&of_floats(&[7.0; 3]));
    let vector = hex(&of_floats(&[6.0, 7.0, 8.0]));
    accepted("scalar_encode", &["3".into(), "4".into(), vector, seven.clone(), seven], &[0x00, 0x0F]);
    println!("# root of the least subnormal: 0x1A3504F3");
    accepted("root", &["0x00000001".into()], &of_words(&[0x1A35_04F3]));
    println!("# estimates 1, 2, distances 2, 2: Ask 0, Give 0, Ask 1, Give 1, Done");
    let estimates = hex(&of_floats(&[1.0, 2.0]));
    let mut run = Reranking { estimates, distances: of_floats(&[0.0, 0.0]), marks: vec![0, 0] };
    run.ask(0, 0);
    run.supply(0, 2.0, 1);
    run.give(0, 2.0, 1);
    run.ask(1, 1);
    run.supply(1, 2.0, 2);
    run.give(1, 2.0, 2);
    run.done(2);
}

/// The lists of a run of the reranker, and the lines of its calls.
struct Reranking {
    estimates: String,
    distances: Vec<u8>,
    marks: Vec<u8>,
}

impl Reranking {
    fn next(&mut self, marks: Vec<u8>, out: [u32; 4]) {
        let lists = format!("{} {}", self.estimates, hex(&self.distances));
        println!("rerank_next {lists} {} {} = 0 {} {}", hex(&self.marks), old(16), hex(&marks), hex(&of_words(&out)));
        self.marks = marks;
    }

    fn ask(&mut self, place: u32, count: u32) {
        self.next(self.marks.clone(), [1, place, 0, count]);
    }

    fn give(&mut self, place: u32, distance: f32, count: u32) {
        let mut marks = self.marks.clone();
        marks[place as usize] = 2;
        self.next(marks, [2, place, distance.to_bits(), count]);
    }

    fn done(&mut self, count: u32) {
        self.next(self.marks.clone(), [0, 0, 0, count]);
    }

    fn supply(&mut self, place: u32, distance: f32, count: u32) {
        let (mut distances, mut marks) = (self.distances.clone(), self.marks.clone());
        distances[4 * place as usize..][..4].copy_from_slice(&of_floats(&[distance]));
        marks[place as usize] = 1;
        println!(
            "rerank_supply {} {} {} {place} {} {} = 0 {} {} {}",
            self.estimates,
            hex(&self.distances),
            hex(&self.marks),
            bits(distance),
            old(4),
            hex(&distances),
            hex(&marks),
            hex(&of_words(&[count]))
        );
        (self.distances, self.marks) = (distances, marks);
    }
}

// ---- the Rust

fn scalar(rng: &mut Rng) {
    title("The Rust's scalar quantizer: encode, table and distance.");
    for (i, bits) in [1u32, 2, 4, 8, 4, 2].into_iter().enumerate() {
        let dims = [8, 5, 7, 3, 16, 1][i];
        let min: Vec<f32> = rng.mild_floats(dims).iter().map(|x| x - 1.0).collect();
        let max: Vec<f32> = min.iter().map(|low| low + rng.mild().abs() * 2.0).collect();
        let vector: Vec<f32> = min.iter().map(|low| low + rng.mild() * 3.0).collect();
        let floats = [&vector, &min, &max].map(|floats| hex(&of_floats(floats)));
        let code = rust::scalar_encode(dims as u32, bits, &vector, &min, &max);
        accepted("scalar_encode", &[numbers(&[dims as u32, bits]), floats.to_vec()].concat(), &code);
        for metric in [1, 2] {
            let shape = numbers(&[metric, dims as u32, bits]);
            let table = rust::scalar_table(metric, dims as u32, bits, &vector, &min, &max);
            if bits < 8 {
                accepted("scalar_table", &[shape.clone(), floats.to_vec()].concat(), &of_floats(&table));
            }
            let Some(distance) = rust::scalar_distance(metric, dims as u32, bits, &table, &code) else { continue };
            let buffers = vec![hex(&of_floats(&table)), hex(&code)];
            accepted("scalar_distance", &[shape, buffers].concat(), &of_floats(&[distance]));
        }
    }
}

struct Drawn {
    query: Vec<u8>,
    codes: Vec<u8>,
    dis_v_2: f32,
    b: f32,
    k: f32,
}

/// A query and 32 codes of mild factors.
fn drawn(rng: &mut Rng, dims: usize) -> Drawn {
    let codes = (0..32).flat_map(|_| {
        let factors = [rng.mild().abs(), rng.mild(), rng.mild(), rng.mild().abs()];
        rust::code_encode(dims as u32, factors, &rng.mild_floats(dims))
    });
    let codes = codes.collect();
    let query = (0..dims).map(|_| rng.below(16) as u8).collect();
    Drawn { query, codes, dis_v_2: rng.mild().abs(), b: rng.mild(), k: rng.mild() }
}

fn codes_and_sums(rng: &mut Rng) {
    title("The Rust's codes, blocks and sums.");
    for dims in [1usize, 5, 64, 65] {
        let vector = rng.mild_floats(dims);
        let factors = [rng.mild(), rng.mild(), rng.mild(), rng.mild()];
        let code = rust::code_encode(dims as u32, factors, &vector);
        let arguments = [numbers(&[dims as u32]), vec![hex(&of_floats(&factors)), hex(&of_floats(&vector))]].concat();
        accepted("code_encode", &arguments, &code);
        let index = rng.below(dims);
        let arguments = [numbers(&[dims as u32]), vec![hex(&code), index.to_string()]].concat();
        accepted("code_bit", &arguments, &of_words(&[u32::from(vector[index].is_sign_positive())]));
    }
    for dims in [1usize, 6, 65] {
        let Drawn { query, codes, .. } = drawn(rng, dims);
        let block = rust::block_pack(dims as u32, &codes);
        let size = codes.len() / 32;
        let shape = numbers(&[dims as u32]);
        accepted("block_pack", &[shape.clone(), vec![hex(&codes)]].concat(), &block);
        let lane = rng.below(32);
        let arguments = [shape.clone(), vec![hex(&block), lane.to_string()]].concat();
        accepted("block_lane", &arguments, &codes[lane * size..][..size]);
        accepted("query_sum", &[shape.clone(), vec![hex(&query)]].concat(), &of_words(&[rust::query_sum(&query)]));
        let arguments = [shape.clone(), vec![hex(&query), hex(&codes[..size])]].concat();
        accepted("code_sum", &arguments, &of_words(&[rust::code_sum(&query, &codes[..size])]));
        let arguments = [shape, vec![hex(&query), hex(&block)]].concat();
        accepted("block_sums", &arguments, &of_words(&rust::block_sums(&query, &block)));
    }
}

fn estimates_and_walks(rng: &mut Rng) {
    title("The Rust's estimates and walks. Its halves of a dot estimate are taken first: here that is the same.");
    for (dims, metric) in [(3usize, 1u32), (40, 1), (3, 2), (40, 2)] {
        let Drawn { query: codes_of_query, codes, dis_v_2, b, k } = drawn(rng, dims);
        let query = Query { metric, dims: dims as u32, dis_v_2, b, k, codes: &codes_of_query };
        let block = rust::block_pack(dims as u32, &codes);
        let size = codes.len() / 32;
        let single = &codes[..size];
        let shape =
            [numbers(&[metric, dims as u32]), vec![bits(dis_v_2), bits(b), bits(k), hex(&codes_of_query)]].concat();
        for (call, asked) in [("rough", Asked::Rough), ("lower_bound", Asked::LowerBound)] {
            let estimate = rust::estimate_code(query, asked, single);
            accepted(&format!("code_{call}"), &[shape.clone(), vec![hex(single)]].concat(), &of_floats(&[estimate]));
        }
        for (call, asked) in [("rough", Asked::Rough), ("lower_bounds", Asked::LowerBound)] {
            let estimates = rust::estimate_block(query, asked, &block);
            accepted(&format!("block_{call}"), &[shape.clone(), vec![hex(&block)]].concat(), &of_floats(&estimates));
        }
        for (layout, records) in [(1u32, &codes), (2, &block)] {
            let (start, end) = (rng.below(10) as u32, 20 + rng.below(12) as u32);
            let found = rust::walk(Walk { query, layout, records, n: 32, start, end });
            let ids: Vec<u32> = found.iter().map(|(id, _)| *id).collect();
            let bounds: Vec<f32> = found.iter().map(|(_, bound)| *bound).collect();
            let c = ids.len();
            println!(
                "walk {metric} {layout} {dims} {} {} {} {} {} 32 {start} {end} {} {} {} {} = 0 {} {} {} {}",
                bits(dis_v_2),
                bits(b),
                bits(k),
                hex(&codes_of_query),
                hex(records),
                old(4 * c),
                old(4 * c),
                old(c),
                old(4),
                hex(&of_words(&ids)),
                hex(&of_floats(&bounds)),
                hex(&vec![0; c]),
                hex(&of_words(&[c as u32]))
            );
        }
    }
}

fn reranking(rng: &mut Rng) {
    title("Whole runs of the Rust's reranker, on distances that are all different.");
    for n in [1usize, 3, 8] {
        let estimates = rng.mild_floats(n);
        let distances: Vec<f32> = estimates.iter().map(|estimate| estimate + rng.mild().abs()).collect();
        let mut run = Reranking {
            estimates: hex(&of_floats(&estimates)),
            distances: of_floats(&vec![0.0; n]),
            marks: vec![0; n],
        };
        let mut count = 0;
        for event in rust::search(&estimates, &distances) {
            match event {
                rust::Event::Ask(place) => {
                    run.ask(place, count);
                    count += 1;
                    run.supply(place, distances[place as usize], count);
                }
                rust::Event::Give(place, distance) => run.give(place, distance, count),
            }
        }
        run.done(count);
    }
}

fn main() {
    println!("# Answers to replay, one call to a line. Written by harness/src/bin/answers.rs: see there how, and src/main.rt for the form.");
    the_paper();
    let mut rng = Rng::new(2024);
    scalar(&mut rng);
    codes_and_sums(&mut rng);
    estimates_and_walks(&mut rng);
    reranking(&mut rng);
}
