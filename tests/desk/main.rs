//! Makes text lines for the program `desk`, the same each time, and says with the independent program what it has to print.
//!
//!     desk lines               the stored lines
//!     desk random SEED BYTES   random lines, most of them a time, some damaged
//!     desk mix SEED LINES      the lines of the benchmark
//!     desk answers             the answers to standard input

#[path = "../independent/mod.rs"]
mod independent;
mod cases;
mod random;
mod steps;

use std::io::{Read, Write};
use std::process::exit;

fn main() {
    let words: Vec<String> = std::env::args().skip(1).collect();
    let words: Vec<&str> = words.iter().map(String::as_str).collect();
    let made = match words.as_slice() {
        ["lines"] => cases::lines(),
        ["random", seed, bytes] => random::lines(number(seed), number(bytes) as usize),
        ["mix", seed, lines] => random::mix(number(seed), number(lines)),
        ["answers"] => {
            let mut input = Vec::new();
            std::io::stdin().read_to_end(&mut input).unwrap_or_else(|e| stop(&e.to_string()));
            independent::lines::answers(&input)
        }
        _ => stop("usage: desk lines | random SEED BYTES | mix SEED LINES | answers"),
    };
    std::io::stdout().write_all(&made).unwrap_or_else(|e| stop(&e.to_string()));
}

fn number(word: &str) -> u64 {
    word.parse().unwrap_or_else(|_| stop(&format!("{word} is no number")))
}

fn stop(why: &str) -> ! {
    eprintln!("desk: {why}");
    exit(2)
}
