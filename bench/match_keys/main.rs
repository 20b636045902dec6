//! The same loops in Rust, over std alone: substring by `str::contains`.
use std::time::Instant;
use std::{env, fs};

const ROUNDS: u32 = 20;
const QUERIES: [&str; 4] = ["opal", "fire opal", "na", "seren"];
const NAMES: [&str; 7] = ["exact", "prefix", "suffix", "substring", "word", "first", "last"];

fn words(key: &str) -> impl DoubleEndedIterator<Item = &str> {
    key.split([' ', '\t']).filter(|word| !word.is_empty())
}

fn begins_with_words<'a>(mut key: impl Iterator<Item = &'a str>, mut query: impl Iterator<Item = &'a str>) -> bool {
    query.all(|word| key.next() == Some(word))
}

fn has_words(key: &str, query: &str) -> bool {
    (0..=words(key).count()).any(|from| begins_with_words(words(key).skip(from), words(query)))
}

fn matches(name: &str, query: &str, key: &str) -> bool {
    !query.is_empty()
        && match name {
            "exact" => key == query,
            "prefix" => key.starts_with(query),
            "suffix" => key.ends_with(query),
            "substring" => key.contains(query),
            "word" => has_words(key, query),
            "first" => begins_with_words(words(key), words(query)),
            _ => begins_with_words(words(key).rev(), words(query).rev()),
        }
}

fn main() {
    let text = fs::read_to_string(env::args().nth(1).expect("a file")).expect("keys");
    let keys: Vec<&str> = text.lines().collect();
    for name in NAMES {
        let start = Instant::now();
        let mut hits = 0;
        for _ in 0..ROUNDS {
            for query in QUERIES {
                hits += keys.iter().filter(|key| matches(name, std::hint::black_box(query), key)).count();
            }
        }
        println!("{name} {hits} {}", start.elapsed().as_micros());
    }
}
