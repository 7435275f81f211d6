//! The intended differences from the Rust, each with its smallest input, both sides shown.

mod block;
mod code;
mod digits;
mod estimate;
mod rerank;
mod scalar;
mod sums;
mod walk;

/// The last cell of each row of the page's table names the test that shows it, but for what this machine cannot show.
#[test]
fn every_row_of_the_page_names_its_test() {
    let page = include_str!("../../../docs/DIFFERENCES.md");
    let tests = [
        ("block", include_str!("block.rs")),
        ("code", include_str!("code.rs")),
        ("digits", include_str!("digits.rs")),
        ("estimate", include_str!("estimate.rs")),
        ("rerank", include_str!("rerank.rs")),
        ("scalar", include_str!("scalar.rs")),
        ("sums", include_str!("sums.rs")),
        ("walk", include_str!("walk.rs")),
    ];
    let rows: Vec<&str> = page.lines().filter(|line| line.starts_with("| ")).skip(1).collect();
    let mut named = 0;
    for row in &rows {
        let names = row.trim_end_matches('|').rsplit('|').next().unwrap().trim();
        for name in names.split(", ").filter(|name| *name != "none here") {
            let (module, function) = name.trim_matches('`').split_once("::").unwrap_or_else(|| panic!("{row}"));
            let stands = |(file, text): &(&str, &str)| *file == module && text.contains(&format!("\nfn {function}("));
            assert!(tests.iter().any(stands), "no test {name}");
            named += 1;
        }
    }
    assert!(named + 1 >= rows.len() && rows.len() > 20, "{named} tests for {} rows", rows.len());
}
