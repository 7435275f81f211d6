//! The differential driver. `differential [SEED [SECONDS]]` tries every call on random, boundary and damaged input for
//! that long and prints how often each call gave each number. `--calls N` runs for N calls in the place of a time, and
//! `--break CALL:SLIP` puts a copy with a slip in the place of one call, which must be found.
//!
//! It exits with 1 on a difference, and when a number that a call can give was not reached.

use harness::drive::{calls, is_slip, Run, SLIPS};
use std::process::ExitCode;
use std::time::{Duration, Instant};

fn usage() -> ExitCode {
    eprintln!("differential [SEED [SECONDS]] [--calls N] [--break CALL:SLIP]");
    eprintln!("slips of every call: {}", SLIPS.join(" "));
    for call in calls() {
        eprintln!("slips of {}: {}", call.name, call.slips.join(" "));
    }
    ExitCode::from(2)
}

fn main() -> ExitCode {
    let (mut plain, mut most, mut slip) = (Vec::new(), None, None);
    let mut arguments = std::env::args().skip(1);
    while let Some(argument) = arguments.next() {
        match argument.as_str() {
            "--calls" => match arguments.next().and_then(|n| n.parse::<u64>().ok()) {
                Some(n) => most = Some(n),
                None => return usage(),
            },
            "--break" => match arguments.next().as_deref().and_then(|text| text.split_once(':')) {
                Some((call, name)) if is_slip(call, name) => slip = Some((call.to_string(), name.to_string())),
                _ => return usage(),
            },
            _ => match argument.parse::<u64>() {
                Ok(number) => plain.push(number),
                Err(_) => return usage(),
            },
        }
    }
    let seed = plain.first().copied().unwrap_or(1);
    let time = Duration::from_secs(plain.get(1).copied().unwrap_or(5));
    let mut run = match &slip {
        Some((call, name)) => Run::broken(seed, call, name),
        None => Run::new(seed),
    };
    println!("seed {seed}");

    let draw: Vec<_> = calls().into_iter().flat_map(|call| std::iter::repeat_n(call, call.weight)).collect();
    let began = Instant::now();
    let mut rounds = 0u64;
    while match most {
        Some(most) => run.made() < most,
        None => rounds % 64 != 0 || began.elapsed() < time,
    } {
        let call = draw[run.rng.below(draw.len())];
        if let Some(difference) = run.try_call(call) {
            println!("DIFFERENCE in {difference}");
            return ExitCode::FAILURE;
        }
        rounds += 1;
    }
    print!("{}", run.table());
    println!("{} calls agree in {:.1} s", run.made(), began.elapsed().as_secs_f64());
    let missed = run.not_reached();
    for missed in &missed {
        println!("NOT REACHED {missed}");
    }
    if missed.is_empty() {
        ExitCode::SUCCESS
    } else {
        ExitCode::FAILURE
    }
}
