//! include/lintelkite.h, read as text.

pub const TEXT: &str = include_str!("../../include/lintelkite.h");

/// A function: its name, then each parameter's name and type, spelled the C way.
pub type Function = (String, Vec<(String, String)>);

/// The text with single spaces between its words.
pub fn one_line(text: &str) -> String {
    text.split_whitespace().collect::<Vec<_>>().join(" ")
}

/// The header without comments and preprocessor lines.
pub fn bare() -> String {
    let mut bare = String::new();
    let mut rest = TEXT;
    while let Some(at) = rest.find("/*") {
        bare.push_str(&rest[..at]);
        bare.push(' ');
        rest = &rest[at + 2..];
        rest = &rest[rest.find("*/").expect("a comment ends") + 2..];
    }
    bare.push_str(rest);
    bare.lines().filter(|line| !line.trim_start().starts_with('#')).collect::<Vec<_>>().join("\n")
}

/// Every function that it declares.
pub fn functions() -> Vec<Function> {
    let mut found = Vec::new();
    for piece in bare().split(';') {
        let piece = one_line(piece);
        let Some(at) = piece.find("uint32_t lk_") else { continue };
        let (name, parameters) = piece[at + "uint32_t ".len()..].split_once('(').expect("a parameter list");
        let parameters = parameters.strip_suffix(')').expect("a parameter list ends");
        let parameters = parameters.split(',').map(|parameter| {
            let cut = parameter.rfind([' ', '*']).unwrap() + 1;
            (parameter[cut..].to_string(), one_line(&parameter[..cut]))
        });
        found.push((name.to_string(), parameters.collect()));
    }
    found
}

/// The bytes of stack that a call may take. The header says it in one sentence, in pieces that end with "N KiB", and what
/// it says of every other call last.
pub fn stack(call: &str) -> usize {
    let text = one_line(&TEXT.lines().map(|line| line.trim_start_matches(" *")).collect::<Vec<_>>().join(" "));
    let (_, sentence) = text.split_once("The stack that a call takes: ").expect("a sentence on the stack");
    let (sentence, _) = sentence.split_once('.').expect("the sentence ends");
    let estimates_of_a_block = ["lk_block_rough", "lk_block_lower_bounds"].contains(&call);
    let mut pieces = sentence.split(", ");
    let piece = pieces.find(|piece| {
        piece.split(' ').any(|word| word == call)
            || (estimates_of_a_block && piece.contains("the calls on a block's estimates"))
            || piece.starts_with("every other ")
    });
    let words: Vec<&str> = piece.expect("the sentence speaks of every call").split(' ').collect();
    let [.., kib, "KiB"] = words[..] else { panic!("no figure in {sentence}") };
    1_024 * kib.parse::<usize>().expect("a figure")
}
