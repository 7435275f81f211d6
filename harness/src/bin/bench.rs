//! Benchmarks: `bench [MILLISECONDS]` measures every row for that long (default 60) and prints the tables.

use harness::bench::{all, Clock};
use std::time::Duration;

fn main() {
    let row = std::env::args().nth(1).and_then(|text| text.parse().ok()).unwrap_or(60);
    let cpu = std::fs::read_to_string("/proc/cpuinfo").unwrap_or_default();
    let cpu = cpu.lines().find_map(|line| line.strip_prefix("model name")).unwrap_or("unknown");
    let cpu = cpu.trim_start_matches([' ', '\t', ':']);
    println!("CPU: {cpu}; the least of many repetitions, {row} ms a row");
    all(&Clock { row: Duration::from_millis(row) });
}
