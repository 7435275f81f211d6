//! Benchmarks: the C functions beside the Rust that is ported, in one run.
//!
//! Times are the least of many repetitions, taken in turns, so that whatever else the machine does touches all alike.
//! The ratio is ours to the Rust's form. Where a ratio is asked for, it stands beside the one measured.

mod block;
mod code;
mod digits;
mod estimate;
mod rerank;
mod root;
mod scalar;
mod sums;
mod walk;

use crate::upstream::detect::{levels, with, Level};
use std::hint::black_box;
use std::time::{Duration, Instant};

/// The dims that the tables have.
pub const DIMS: [u32; 3] = [128, 1_024, 4_369];

/// One thing that is measured: a name and a call of it, at one level of the Rust's forms.
pub struct Form<'a> {
    name: String,
    level: Level,
    call: Box<dyn FnMut() + 'a>,
}

impl<'a> Form<'a> {
    pub fn new<R>(name: &str, mut call: impl FnMut() -> R + 'a) -> Form<'a> {
        let call = Box::new(move || {
            black_box(call());
        });
        Form { name: name.to_string(), level: Level::Fallback, call }
    }

    /// A form of the Rust's at one level.
    pub fn at<R>(level: Level, name: &str, call: impl FnMut() -> R + 'a) -> Form<'a> {
        Form { level, ..Form::new(name, call) }
    }
}

/// What the Rust's block forms are called at each level.
pub fn block_forms() -> Vec<(Level, &'static str)> {
    let names = [(Level::Fallback, "portable"), (Level::V2, "SSSE3"), (Level::V3, "AVX2"), (Level::V4, "AVX-512")];
    names.into_iter().filter(|(level, _)| levels().contains(level)).collect()
}

/// What the Rust's single forms are called at each level.
pub fn single_forms() -> Vec<(Level, &'static str)> {
    let names = [(Level::Fallback, "portable"), (Level::V2, "popcnt")];
    names.into_iter().filter(|(level, _)| levels().contains(level)).collect()
}

pub struct Clock {
    /// How long the forms of a row are measured in all.
    pub row: Duration,
}

impl Clock {
    /// The least time of each form in nanoseconds.
    pub fn race(&self, forms: &mut [Form]) -> Vec<f64> {
        // How often a form is called in one sample: about 20 us, so that the clock's own time does not show.
        let mut repeats = Vec::new();
        for form in forms.iter_mut() {
            let call = &mut form.call;
            repeats.push(with(form.level, || {
                let began = Instant::now();
                let mut n = 0u32;
                while n == 0 || (began.elapsed() < Duration::from_micros(20) && n < 10_000) {
                    call();
                    n += 1;
                }
                n
            }));
        }
        let mut least = vec![f64::MAX; forms.len()];
        let began = Instant::now();
        let mut rounds = 0;
        while rounds < 3 || began.elapsed() < self.row {
            for (i, form) in forms.iter_mut().enumerate() {
                let (call, n) = (&mut form.call, repeats[i]);
                let nanos = with(form.level, || {
                    let began = Instant::now();
                    for _ in 0..n {
                        call();
                    }
                    began.elapsed().as_nanos() as f64 / f64::from(n)
                });
                least[i] = least[i].min(nanos);
            }
            rounds += 1;
        }
        least
    }

    /// Measures a row and prints it: ours first, then each form with the ratio of ours to it. `asked` names forms and
    /// the greatest ratio asked for.
    pub fn row(&self, what: &str, asked: &[(&str, f64)], mut forms: Vec<Form>) -> Vec<f64> {
        let nanos = self.race(&mut forms);
        print_row(what, &forms.iter().map(|form| form.name.as_str()).collect::<Vec<_>>(), &nanos, asked);
        nanos
    }
}

/// A row of times that were measured already.
pub fn print_row(what: &str, names: &[&str], nanos: &[f64], asked: &[(&str, f64)]) {
    print!("{what:<44}{:>12.1}", nanos[0]);
    for (name, theirs) in names.iter().zip(nanos).skip(1) {
        let ratio = nanos[0] / theirs;
        print!("   {name} {theirs:.1} ({ratio:.2}");
        if let Some((_, most)) = asked.iter().find(|(asked, _)| asked == name) {
            print!(", asked {most:.2}{}", if ratio > *most { " MISSED" } else { "" });
        }
        print!(")");
    }
    println!();
}

/// A heading of a table.
pub fn heading(text: &str) {
    println!("\n{text:<44}{:>12}   the Rust's forms: ns (ratio of ours to it)", "ours, ns");
}

/// Prints every table.
pub fn all(clock: &Clock) {
    digits::run(clock);
    root::run(clock);
    scalar::run(clock);
    rerank::run(clock);
    code::run(clock);
    block::run(clock);
    sums::run(clock);
    estimate::run(clock);
    walk::run(clock);
}
