//! Numbers a million names, half of them repeats, in a `HashMap` of the standard library: the measure for the speed of
//! `ix_strings::Names::add`.
//!
//! usage: rustc --edition 2024 -O bench/names.rs -o names && ./names
//!
//! The texts are `top/block_K/net` for K from 0 to 499,999, and then the same again. Each of nine runs numbers them in a
//! new map, and prints the time of that alone.

use std::collections::HashMap;
use std::time::Instant;

/// The number of the text: its own where it is there, else the next one, under which it is added.
fn add(names: &mut HashMap<String, u32>, text: &str) -> u32 {
    if let Some(number) = names.get(text) {
        return *number;
    }
    let number = names.len() as u32;
    names.insert(text.to_string(), number);
    number
}

fn main() {
    let texts: Vec<String> = (0..1_000_000u32)
        .map(|i| format!("top/block_{}/net", i % 500_000))
        .collect();
    for _ in 0..9 {
        let mut names = HashMap::new();
        let start = Instant::now();
        for text in &texts {
            add(&mut names, text);
        }
        let took = start.elapsed().as_micros();
        println!("{took} us, {} names", names.len());
    }
}
