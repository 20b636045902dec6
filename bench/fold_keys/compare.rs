//! compare FILE: reads what compare.pl reads, and prints where Rust's std keeps a character past ASCII that the key
//! leaves out, or the other way round. It knows letters and numbers, by its version of Unicode, and no case folding.
use std::{env, fs};

fn is_kept(c: char) -> bool {
    c.is_ascii_alphanumeric() || c == ' ' || c == '\t' || !c.is_ascii() && (c.is_alphabetic() || c.is_numeric())
}

/// Runs of numbers that follow one another, by their ends.
fn runs(numbers: &[u32]) -> String {
    let run = |it: &[u32]| format!("U+{:04X}..{:04X}", it[0], it[it.len() - 1]);
    numbers.chunk_by(|a, b| a + 1 == *b).map(run).collect::<Vec<_>>().join(" ")
}

fn main() {
    let lines = fs::read_to_string(env::args().nth(1).expect("a file")).expect("keys");
    let (mut same, mut other) = (0, Vec::new());
    for line in lines.lines() {
        let mut numbers = line.split(' ').map(|it| it.parse::<u32>().expect("a number"));
        let c = numbers.next().and_then(char::from_u32).expect("a character");
        let has_more = numbers.count() > 1;
        if has_more == (c.to_lowercase().any(is_kept) && c != ' ' && c != '\t') {
            same += 1;
        } else {
            other.push(c as u32);
        }
    }
    let (major, minor, _) = char::UNICODE_VERSION;
    println!("{same} characters are kept or left out alike. Rust has Unicode {major}.{minor}.");
    println!("{} others: {}", other.len(), runs(&other));
}
