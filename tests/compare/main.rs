//! Compares every function of the C interface with the independent program, on random inputs, on the edges of every rule
//! and on damaged bytes, all lent bytes included; and holds the refusals that came to those that each function has.
//!
//!     compare CALLS SERVER [WORDS..]       CALLS a function; the server is a program that links the library
//!     compare answers SERVER [WORDS..]     a digest of each function's answers to fixed calls

#[path = "../independent/mod.rs"]
mod independent;
mod calls;
mod server;

use calls::{bytes_of, digest, Answer, Call, Function, Random, FUNCTIONS};
use server::Server;
use std::collections::BTreeMap;
use std::process::exit;

const BATCH: usize = 1000;
/// The fixed calls of a function.
const FIXED: usize = 4000;

fn main() {
    let words: Vec<String> = std::env::args().skip(1).collect();
    let [what, server @ ..] = words.as_slice() else { usage() };
    if server.is_empty() {
        usage()
    }
    let mut server = Server::start(server);
    if what == "answers" {
        FUNCTIONS.iter().for_each(|&function| println!("{}", digested(&mut server, function)));
        return;
    }
    let Ok(calls) = what.parse() else { usage() };
    let (mut passed, mut failed) = (0, 0);
    for &function in FUNCTIONS {
        for (ok, said) in compared(&mut server, function, calls) {
            if ok { passed += 1 } else { failed += 1 }
            println!("{} {}: {said}", if ok { "ok" } else { "FAILED" }, function.name());
        }
    }
    println!("{passed} passed, {failed} failed");
    exit(i32::from(failed > 0));
}

/// That all answers are the independent program's, and that each number of the function came often and no other ever.
fn compared(server: &mut Server, function: Function, calls: usize) -> [(bool, String); 2] {
    let mut random = Random::new(function.name());
    let mut came: BTreeMap<u64, usize> = BTreeMap::new();
    let (mut done, mut differ) = (0, 0);
    while done < calls {
        let batch: Vec<Call> = (0..BATCH).map(|_| function.make(&mut random)).collect();
        for (call, answer) in batch.iter().zip(server.ask(&batch)) {
            let right = call.model();
            *came.entry(right.words[0]).or_default() += 1;
            if answer != right {
                differ += 1;
                if differ <= 3 {
                    println!("{}: {call:x?}\n    the library: {answer:x?}\n    independent: {right:x?}", function.name());
                }
            }
        }
        done += batch.len();
    }
    let (expected, least) = (function.numbers(), calls / 100);
    let rare: Vec<_> = expected.iter().filter(|n| came.get(n).copied().unwrap_or(0) < least).collect();
    let never: Vec<_> = came.keys().filter(|n| !expected.contains(n)).collect();
    let refusals = format!("refusals that came {came:?}; below {least}: {rare:?}; not the function's: {never:?}");
    [(differ == 0, format!("{done} calls, {differ} differ")), (rare.is_empty() && never.is_empty(), refusals)]
}

/// A digest of the fixed calls and one of their answers. Words that are 0 at an answer's end do not count, so that a field that
/// is added there changes no digest of the answers that have none.
fn digested(server: &mut Server, function: Function) -> String {
    let mut random = Random::new(&format!("answers of {}", function.name()));
    let calls: Vec<Call> = (0..FIXED).map(|_| function.make(&mut random)).collect();
    let answers = server.ask(&calls);
    for number in function.numbers() {
        if !answers.iter().any(|answer| answer.words[0] == number) {
            stop(&format!("{}: none of its fixed calls has the number {number}", function.name()));
        }
    }
    let asked = calls.iter().flat_map(|call| told(&call.words, &call.slices));
    let answered = answers.iter().flat_map(|Answer { words, lent }| told(trimmed(words), lent));
    format!("{:22}{:016x}  {:016x}", function.name(), digest(asked), digest(answered))
}

/// Without the words that are 0 at the end.
fn trimmed(words: &[u64]) -> &[u64] {
    &words[..words.iter().rposition(|&word| word != 0).map_or(0, |last| last + 1)]
}

/// Words and slices as bytes, each with its length before it.
fn told(words: &[u64], slices: &[Vec<u8>]) -> Vec<u8> {
    let mut all = bytes_of(&[&[words.len() as u64], words].concat());
    for slice in slices {
        all.extend((slice.len() as u64).to_le_bytes());
        all.extend(slice);
    }
    all
}

fn usage() -> ! {
    stop("usage: compare CALLS|answers SERVER [WORDS..]")
}

fn stop(why: &str) -> ! {
    eprintln!("compare: {why}");
    exit(2)
}
