//! The program `cabinet`, run on files: it ranks as a full sort by exact distance does, reads fewer distances, and says of
//! damaged files what is wrong with them.

use harness::cabinet::{random, Cabinet, DOT, L2};
use harness::program::{built, root};
use harness::rng::Rng;
use std::path::PathBuf;
use std::process::Command;
use std::{env, fs};

/// A folder of its own for a test, removed at the end.
struct Folder(PathBuf);

impl Folder {
    fn new(name: &str) -> Folder {
        let path = env::temp_dir().join(format!("lintelkite-cabinet-{}-{name}", std::process::id()));
        fs::create_dir_all(&path).unwrap();
        Folder(path)
    }

    fn run(&self, records: &[u8], distances: &[u8], wanted: Option<usize>) -> String {
        fs::write(self.0.join("records"), records).unwrap();
        fs::write(self.0.join("distances"), distances).unwrap();
        let wanted = wanted.map(|n| n.to_string());
        let ran = Command::new(built("cabinet"))
            .args(["records", "distances"])
            .args(&wanted)
            .current_dir(&self.0)
            .output()
            .expect("the program runs");
        assert!(ran.status.success());
        String::from_utf8(ran.stdout).unwrap()
    }
}

impl Drop for Folder {
    fn drop(&mut self) {
        let _ = fs::remove_dir_all(&self.0);
    }
}

/// What the program said: the records in order with the bits of their distances, then how many distances were read and spared.
struct Said {
    given: Vec<(usize, u32)>,
    read: usize,
    spared: usize,
}

fn understood(text: &str) -> Said {
    let mut lines: Vec<&str> = text.lines().collect();
    let tally = lines.pop().expect("a last line");
    let numbers: Vec<usize> = tally.split(|c: char| !c.is_ascii_digit()).filter_map(|word| word.parse().ok()).collect();
    let [given, _, read, spared] = numbers[..] else { panic!("{tally}") };
    assert_eq!(given, lines.len(), "{tally}");
    let given = lines.iter().enumerate().map(|(i, line)| {
        let rest = line.strip_prefix(&format!("{}. record ", i + 1)).unwrap_or_else(|| panic!("{line}"));
        let (record, rest) = rest.split_once(" at ").unwrap_or_else(|| panic!("{line}"));
        let (decimal, bits) = rest.split_once(" (0x").unwrap_or_else(|| panic!("{line}"));
        let bits = u32::from_str_radix(bits.strip_suffix(')').unwrap(), 16).unwrap();
        same_number(decimal, f32::from_bits(bits));
        (record.parse().unwrap(), bits)
    });
    Said { given: given.collect(), read, spared }
}

/// The decimal is the float: exactly, or cut off after nine places where it ends in two points.
fn same_number(decimal: &str, float: f32) {
    if let Some((m, power)) = decimal.trim_start_matches('-').split_once(" x 2^") {
        assert_eq!(m.parse::<f64>().unwrap() * 2f64.powi(power.parse().unwrap()), f64::from(float.abs()));
    } else if let Some(cut) = decimal.strip_suffix("..") {
        let exact = format!("{:.60}", float);
        assert!(exact.starts_with(cut), "{decimal} is not the beginning of {exact}");
    } else {
        assert_eq!(decimal.parse::<f64>().unwrap().to_bits(), f64::from(float).to_bits(), "{decimal}");
    }
    assert_eq!(decimal.starts_with('-'), float.is_sign_negative(), "{decimal}");
}

/// The program's ranking is that of a full sort: the same distances, each with a record that has it, no record twice. Among
/// equal distances the order is the reranker's.
fn ranks_as_sorted(cabinet: &Cabinet, said: &Said, wanted: usize) {
    let n = cabinet.records.len();
    let sorted = cabinet.sorted();
    assert_eq!(said.given.len(), wanted.min(n));
    for ((record, bits), best) in said.given.iter().zip(&sorted) {
        assert_eq!(cabinet.distances[*record].to_bits(), *bits, "record {record}");
        assert!(cabinet.distances[*record] == cabinet.distances[*best], "record {record} in place of {best}");
    }
    let mut once: Vec<usize> = said.given.iter().map(|(record, _)| *record).collect();
    once.sort();
    once.dedup();
    assert_eq!(once.len(), said.given.len());
    assert_eq!(said.read + said.spared, n);
    // A distance is read only where the bound is not above the last distance that was given.
    if let Some((last, _)) = said.given.last() {
        let last = cabinet.distances[*last];
        let at_most = cabinet.records.iter().filter(|record| cabinet.lower_bound(record) <= last).count();
        let at_least = cabinet.records.iter().filter(|record| cabinet.lower_bound(record) < last).count();
        assert!(at_least <= said.read && said.read <= at_most.max(wanted.min(n)), "{} read", said.read);
    }
}

#[test]
fn the_sample() {
    let folder = Folder::new("sample");
    let data = root().join("crates/cabinet/data");
    let (records, distances) = (fs::read(data.join("records")).unwrap(), fs::read(data.join("distances")).unwrap());
    let floats: Vec<f32> = distances.chunks(4).map(|four| f32::from_le_bytes(four.try_into().unwrap())).collect();
    let mut sorted: Vec<usize> = (0..floats.len()).collect();
    sorted.sort_by(|i, j| floats[*i].partial_cmp(&floats[*j]).unwrap());
    for wanted in [0, 1, 10, floats.len(), 4096] {
        let said = understood(&folder.run(&records, &distances, Some(wanted)));
        let order: Vec<usize> = said.given.iter().map(|(record, _)| *record).collect();
        assert_eq!(order, sorted[..wanted.min(floats.len())]);
        assert!(wanted >= floats.len() || said.read < floats.len(), "{} read", said.read);
    }
}

#[test]
fn a_hundred_cabinets() {
    let folder = Folder::new("hundred");
    let mut rng = Rng::new(7);
    let (mut read, mut candidates) = (0, 0);
    for round in 0..100 {
        let metric = if round % 2 == 0 { L2 } else { DOT };
        let dims = match round {
            0 | 1 => 1,
            2 | 3 => 4369,
            _ => 1 + rng.below(200),
        };
        let n = match round {
            4 => 0,
            5 => 4096,
            _ => 1 + rng.below(300),
        };
        let cabinet = random(&mut rng, metric, dims, n, round % 3 == 0);
        let wanted = if round % 10 == 9 { n } else { 10 };
        let text = folder.run(&cabinet.records_file(), &cabinet.distances_file(), (wanted != 10).then_some(wanted));
        let said = understood(&text);
        ranks_as_sorted(&cabinet, &said, wanted);
        if wanted == 10 {
            read += said.read;
            candidates += n;
        }
    }
    assert!(2 * read < candidates, "{read} of {candidates} distances read");
}

#[test]
fn fewer_distances_than_candidates() {
    let folder = Folder::new("fewer");
    let mut rng = Rng::new(8);
    for metric in [L2, DOT] {
        for n in [64, 500, 4096] {
            let cabinet = random(&mut rng, metric, 64, n, false);
            let said = understood(&folder.run(&cabinet.records_file(), &cabinet.distances_file(), Some(5)));
            assert!(said.read < n && 0 < said.spared, "{} of {n} read", said.read);
        }
    }
}

// ---- damaged files: one line, and no ranking

#[test]
fn damaged_files() {
    let folder = Folder::new("damaged");
    let mut rng = Rng::new(9);
    let cabinet = random(&mut rng, L2, 20, 70, false);
    let (records, distances) = (cabinet.records_file(), cabinet.distances_file());
    let size = 512 + 16 * 5;
    let with = |at: usize, bytes: &[u8]| {
        let mut file = records.clone();
        file[at..at + bytes.len()].copy_from_slice(bytes);
        file
    };
    let says = |records: &[u8], distances: &[u8], line: &str| {
        assert_eq!(folder.run(records, distances, None), format!("{line}\n"));
    };
    says(&[], &distances, "records file: it ends inside the header");
    says(&records[..31], &distances, "records file: it ends inside the header");
    says(&with(7, b"2"), &distances, "records file: it doesn't begin with LKCAB001");
    for dims in [0u32, 4370, u32::MAX] {
        says(&with(12, &dims.to_le_bytes()), &distances, "records file: the number of dims is refused: 1 BAD_DIMS");
    }
    says(&records[..32 + 19], &distances, "records file: it ends inside the query's codes");
    for metric in [0u32, 3] {
        says(&with(8, &metric.to_le_bytes()), &distances, "records file: the query is refused: 5 BAD_VALUE");
    }
    for place in [20, 24, 28] {
        says(&with(place, &f32::NAN.to_le_bytes()), &distances, "records file: the query is refused: 4 MISSING");
        says(&with(place, &f32::INFINITY.to_le_bytes()), &distances, "records file: the query is refused: 4 MISSING");
    }
    says(&with(20, &(-1f32).to_le_bytes()), &distances, "records file: the query is refused: 5 BAD_VALUE");
    says(&with(32 + 19, &[16]), &distances, "records file: the query is refused: 5 BAD_VALUE");
    says(&records[..52], &distances, "records file: the block from record 0 on is cut off");
    says(&records[..52 + 2 * size], &distances, "records file: the block from record 64 on is cut off");
    says(&records[..52 + 3 * size - 1], &distances, "records file: the block from record 64 on is cut off");
    let longer = [&records[..], &[0]].concat();
    says(&longer, &distances, "records file: it goes on after its last block");
    says(&with(16, &64u32.to_le_bytes()), &distances, "records file: it goes on after its last block");
    let nan = f32::NAN.to_le_bytes();
    says(
        &with(52 + size + 4 * 3, &nan),
        &distances,
        "records file: the block from record 32 on is refused: 8 NO_ESTIMATE",
    );
    for length in [0, 70 * 4 - 1, 70 * 4 + 1, 71 * 4] {
        let mut other = distances.clone();
        other.resize(length, 0);
        says(&records, &other, "distances file: it isn't one float for each record");
    }
    let order = cabinet.sorted();
    let mut other = distances.clone();
    other[4 * order[0]..][..4].copy_from_slice(&nan);
    says(&records, &other, &format!("distances file: the distance of record {} is refused: 4 MISSING", order[0]));
    let mut other = distances.clone();
    other[4 * order[0]..][..4].copy_from_slice(&f32::NEG_INFINITY.to_le_bytes());
    says(&records, &other, &format!("distances file: the distance of record {} is below its lower bound", order[0]));
    // A NaN that is never asked for is nobody's loss.
    let mut other = distances.clone();
    let far =
        *order.iter().rev().find(|i| cabinet.lower_bound(&cabinet.records[**i]) > cabinet.distances[order[0]]).unwrap();
    other[4 * far..][..4].copy_from_slice(&nan);
    assert_eq!(understood(&folder.run(&records, &other, Some(1))).given[0].0, order[0]);
}

#[test]
fn more_records_than_places() {
    let folder = Folder::new("room");
    let mut rng = Rng::new(10);
    let cabinet = random(&mut rng, L2, 4, 4097, false);
    let text = folder.run(&cabinet.records_file(), &cabinet.distances_file(), None);
    assert_eq!(text, "records file: the block from record 4096 on is refused: 7 NO_ROOM\n");
}

#[test]
fn commands() {
    let folder = Folder::new("commands");
    let usage = "usage: cabinet RECORDS DISTANCES [WANTED]\n";
    let cabinet = random(&mut Rng::new(11), L2, 4, 3, false);
    let said = |arguments: &[&str]| {
        let ran = Command::new(built("cabinet")).args(arguments).current_dir(&folder.0).output().unwrap();
        String::from_utf8(ran.stdout).unwrap()
    };
    fs::write(folder.0.join("records"), cabinet.records_file()).unwrap();
    fs::write(folder.0.join("distances"), cabinet.distances_file()).unwrap();
    assert_eq!(said(&[]), usage);
    assert_eq!(said(&["records"]), usage);
    assert_eq!(said(&["records", "distances", "3", "4"]), usage);
    for wanted in ["", "x", "-1", "1 ", "1234567890"] {
        assert_eq!(said(&["records", "distances", wanted]), usage, "{wanted}");
    }
    assert_eq!(said(&["absent", "distances"]), "records file: it can't be opened\n");
    assert_eq!(said(&["records", "absent"]), "distances file: it can't be opened\n");
    assert_eq!(understood(&said(&["records", "distances", "999999999"])).given.len(), 3);
}
