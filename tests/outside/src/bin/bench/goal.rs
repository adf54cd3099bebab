//! The greatest engine / Rust that a row may have. It is for its call, its size and how its input is named; the sizes of a table go
//! from the smallest to the largest.

/// A refusal, of any call.
const REFUSED: [&str; 3] = ["1.3", "1.0", "1.0"];

/// The goal of a row: `size` is the place of its size in the table.
pub fn of(call: &str, size: usize, input: &str, number: u32) -> &'static str {
    if number != 0 { REFUSED[size] } else { accepted(call, input)[size] }
}

fn accepted(call: &str, input: &str) -> [&'static str; 3] {
    let news = input.starts_with("news") || input.ends_with("new store");
    match call {
        "check" | "contain" | "cover" => ["1.0", "0.95", "0.85"],
        "lead" => ["1.3", "0.95", "0.85"],
        "knowledge" | "learned" | "winner" | "coverage" => ["1.5", "0.85", "0.75"],
        "edit" | "delete" if !input.contains("first edit") => ["1.7", "0.9", "0.7"],
        "make" if input.starts_with("all ids") => ["1.2", "0.8", "0.7"],
        "make" => ["2.0", "1.2", "1.1"],
        "apply" if news => ["1.2", "0.95", "0.85"],
        "apply" => ["1.0", "0.75", "0.65"],
        "normalise" if input.starts_with("in normal form") => ["0.85", "0.6", "0.7"],
        _ => ["–"; 3],
    }
}
