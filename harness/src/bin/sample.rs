//! Writes the sample of the program `cabinet`, and a damaged one: `cargo run --release --bin sample ../crates`, from harness/.
//!
//! The references are 96 spectra of 120 channels: a few peaks of random place, width and height on a slope. The query is one of
//! them with noise. As in the Rust, a random orthogonal map comes first (here random signs and a Walsh-Hadamard transform of the
//! channels filled up to 128), then the factors of each vector and a query of 4 bits for each dimension. The true squared
//! distance is below the lower bound once in some forty spectra; such a spectrum is drawn again, so that every bound holds.
//! In the damaged sample the distance of record 22, the second best, is a NaN.

use harness::cabinet::{Cabinet, Record, L2};
use harness::rng::Rng;
use std::{env, fs};

const CHANNELS: usize = 120;
const DIMS: usize = 128;
const SPECTRA: usize = 96;

fn unit(rng: &mut Rng) -> f32 {
    (rng.word() >> 40) as f32 / (1 << 24) as f32
}

fn spectrum(rng: &mut Rng) -> Vec<f32> {
    let slope = unit(rng) - 0.5;
    let mut channels: Vec<f32> = (0..CHANNELS).map(|i| slope * i as f32 / CHANNELS as f32).collect();
    for _ in 0..3 + rng.below(5) {
        let (place, width, height) = (unit(rng) * CHANNELS as f32, 1.0 + unit(rng) * 6.0, 0.5 + unit(rng) * 2.0);
        for (i, channel) in channels.iter_mut().enumerate() {
            let x = (i as f32 - place) / width;
            *channel += height / (1.0 + x * x);
        }
    }
    channels
}

/// Signs, then a Walsh-Hadamard transform, scaled so that lengths stay.
fn turned(signs: &[f32], channels: &[f32]) -> Vec<f32> {
    let mut x: Vec<f32> = (0..DIMS).map(|i| signs[i] * channels.get(i).unwrap_or(&0.0)).collect();
    let mut half = 1;
    while half < DIMS {
        for i in 0..DIMS {
            if i & half == 0 {
                (x[i], x[i + half]) = (x[i] + x[i + half], x[i] - x[i + half]);
            }
        }
        half *= 2;
    }
    x.iter().map(|y| y / (DIMS as f32).sqrt()).collect()
}

/// The factors that `code` of the Rust works out, and the signs.
fn record(x: &[f32]) -> Record {
    let sum_of_abs: f32 = x.iter().map(|y| y.abs()).sum();
    let dis_u_2: f32 = x.iter().map(|y| y * y).sum();
    let dims = DIMS as f32;
    let x_x0 = dis_u_2.sqrt() / (sum_of_abs / (dis_u_2 * dims).sqrt());
    let factor_ip = -2.0 / dims.sqrt() * x_x0;
    let positive = x.iter().filter(|y| y.is_sign_positive()).count() as f32;
    let factor_err = 2.0 / (dims - 1.0).sqrt() * (x_x0 * x_x0 - dis_u_2).max(0.0).sqrt();
    Record {
        factors: [dis_u_2, factor_ip * (positive - (dims - positive)), factor_ip, factor_err],
        bits: x.iter().map(|y| y.is_sign_positive()).collect(),
    }
}

fn distance(x: &[f32], y: &[f32]) -> f32 {
    x.iter().zip(y).map(|(x, y)| (x - y) * (x - y)).sum()
}

fn write(crates: &str, name: &str, cabinet: &Cabinet) {
    let folder = format!("{crates}/{name}/data");
    fs::create_dir_all(&folder).unwrap();
    fs::write(format!("{folder}/records"), cabinet.records_file()).unwrap();
    fs::write(format!("{folder}/distances"), cabinet.distances_file()).unwrap();
}

fn main() {
    let crates = env::args().nth(1).expect("the folder of the crates");
    let mut rng = Rng::new(41);
    let signs: Vec<f32> = (0..DIMS).map(|_| if rng.once_in(2) { 1.0 } else { -1.0 }).collect();
    let mut spectra: Vec<Vec<f32>> = (0..SPECTRA).map(|_| spectrum(&mut rng)).collect();
    let noisy: Vec<f32> = spectra[17].iter().map(|channel| channel + (unit(&mut rng) - 0.5) * 0.5).collect();
    let query = turned(&signs, &noisy);
    let (low, high) = query.iter().fold((f32::INFINITY, f32::NEG_INFINITY), |(l, h), x| (l.min(*x), h.max(*x)));
    let k = (high - low) / 15.0;
    let mut cabinet = Cabinet {
        metric: L2,
        dis_v_2: query.iter().map(|x| x * x).sum(),
        b: low,
        k,
        query: query.iter().map(|x| ((x - low) / k).round_ties_even() as u8).collect(),
        records: Vec::new(),
        distances: Vec::new(),
    };
    for (i, spectrum_i) in spectra.iter_mut().enumerate() {
        loop {
            let x = turned(&signs, spectrum_i);
            let (record, distance) = (record(&x), distance(&x, &query));
            if cabinet.lower_bound(&record) <= distance {
                cabinet.records.push(record);
                cabinet.distances.push(distance);
                break;
            }
            assert_ne!(i, 17, "the spectrum that the query was made of");
            *spectrum_i = spectrum(&mut rng);
        }
    }
    write(&crates, "cabinet", &cabinet);
    cabinet.distances[22] = f32::NAN;
    write(&crates, "cabinet_damaged", &cabinet);
}
