//! The same calls for clang's libFuzzer: it makes bytes, a call is taken from them, and the answer is compared and held to the laws
//! as in main.rs. It keeps bytes that lead to a new branch of the independent program, in which the rules are the same, or to code
//! of the library that the emulator had not met.

#[path = "../tests/compare"]
#[allow(dead_code, unused_imports)]
mod compare {
    pub mod calls;
    pub mod server;
}
#[path = "../tests/independent/mod.rs"]
mod independent;

mod laws;
mod library;
mod marks;
mod runs;
mod season;
mod times;

use compare::{calls, server};
use calls::{bytes_of, Call, FUNCTIONS};
use server::Server;
use std::cell::RefCell;

/// libFuzzer takes each byte that is not zero here for a branch.
#[link_section = "__libfuzzer_extra_counters"]
static mut NEW: [u8; 4096] = [0; 4096];

struct State {
    server: Server,
    /// How much the emulator had told, and how often it told more.
    met: u64,
    news: usize,
}

thread_local! {
    static STATE: RefCell<Option<State>> = const { RefCell::new(None) };
}

/// Ends it so that libFuzzer keeps the bytes.
fn stop(why: &str) -> ! {
    println!("FOUND {why}");
    std::process::abort()
}

/// Numbers of the rules: of a range that is tested as one, libFuzzer sees no end.
const RULES: [u64; 15] = [
    3_906_000_000, 3_906_500_000, 86_400_000_000, 86_401_000_000, 1 << 31, 36_525, (-10_227i64) as u64, (-7_300i64) as u64,
    999_000_000, 1_001_000_000, 5_662_310_400, (-5_662_310_400i64) as u64, 1 << 47, 206_815_887_360_000, 484_848,
];

struct Bytes<'a>(&'a [u8]);

impl Bytes<'_> {
    fn one(&mut self) -> u8 {
        self.number(1) as u8
    }

    fn number(&mut self, width: usize) -> u64 {
        let (front, rest) = self.0.split_at(width.min(self.0.len()));
        self.0 = rest;
        front.iter().fold(0, |n, &b| n << 8 | u64::from(b))
    }

    /// A number of few bytes, as days are, one beside a rule's, or a whole word; of so many bytes at most.
    fn word(&mut self, width: usize) -> u64 {
        let wide = width == 8;
        let number = match self.one() % 7 {
            0 => self.one().into(),
            1 => self.number(2) as i16 as u64,
            2 => self.number(4),
            3 if wide => self.number(5),
            4 if wide => self.number(6),
            5 => RULES[usize::from(self.one()) % RULES.len()].wrapping_add(self.one() as i8 as u64),
            _ => self.number(width),
        };
        number & u64::MAX >> (64 - 8 * width)
    }

    /// Published steps, their end, and one word that may be another: days, offsets, the last day.
    fn list(&mut self) -> (Vec<u8>, Vec<u8>, u64) {
        let steps = independent::lines::steps();
        let count = usize::from(self.one()) % 30;
        let mut days: Vec<u64> = steps.iter().cycle().take(count).map(|&day| day as u64).collect();
        let mut offsets: Vec<u64> = (10..).take(count).collect();
        let last = if self.one() % 2 == 0 { 9131 } else { self.number(2) as i16 as u64 };
        match self.one() % 8 {
            0 if count > 0 => {
                let at = usize::from(self.one()) % count;
                days[at] = self.word(8);
            }
            1 if count > 0 => {
                let at = usize::from(self.one()) % count;
                offsets[at] = self.word(8);
            }
            2 => drop(days.pop()),
            _ => {}
        }
        (bytes_of(&days), bytes_of(&offsets), last)
    }

    /// A length that a reader takes, mostly: libFuzzer would be long in finding one.
    fn length(&mut self) -> Option<usize> {
        let (one, lengths) = (usize::from(self.one()), library::lengths());
        (one % 4 != 0).then(|| lengths[one / 4 % lengths.len()])
    }

    /// Elements of so many bytes.
    fn slice(&mut self, width: usize) -> Vec<u8> {
        let count = usize::from(self.one()) % 48;
        (0..count).flat_map(|_| self.word(width).to_le_bytes()[..width].to_vec()).collect()
    }
}

fn taken(data: &[u8]) -> Call {
    let mut bytes = Bytes(data);
    let function = FUNCTIONS[usize::from(bytes.one()) % FUNCTIONS.len()];
    let shape = function.shape();
    let mut words: Vec<u64> = shape.widths().into_iter().map(|width| bytes.word(width)).collect();
    if let Some(told) = shape.image.as_ref().and_then(|image| shape.words(image.told?)) {
        words[told.start] = bytes.length().map_or(words[told.start], |length| length as u64);
    }
    let list = shape.slice("days").zip(shape.slice("offsets")).zip(shape.words("last"));
    let is_list = |name| list.is_some() && ["days", "offsets"].contains(&name);
    // what is left when all else is taken
    let rest = shape.slices().position(|(_, width, lent)| width == 1 && !lent);
    let mut slices = Vec::new();
    for (at, (name, width, lent)) in shape.slices().enumerate() {
        slices.push(if is_list(name) || rest == Some(at) {
            Vec::new()
        } else if lent {
            vec![0xa7; usize::from(bytes.one()) % 48 * width]
        } else {
            bytes.slice(width)
        });
    }
    if let Some(((days, offsets), last)) = list {
        (slices[days], slices[offsets], words[last.start]) = bytes.list();
    }
    if let Some(at) = rest {
        let length = bytes.length();
        slices[at] = bytes.0.to_vec();
        slices[at].resize(length.unwrap_or(bytes.0.len()), 0);
    }
    Call { function, words, slices }
}

impl State {
    fn compare(&mut self, call: &Call) {
        if let Some(why) = library::wrong(&mut self.server, call) {
            stop(&format!("{}: {call:x?}\n    {why}", call.function.name()));
        }
        let met = library::met();
        if met > self.met {
            self.met = met;
            // SAFETY: one thread runs the inputs, and libFuzzer looks between two of them only.
            unsafe { NEW[self.news % 4096] = 1 };
            self.news += 1;
        }
    }
}

#[no_mangle]
pub extern "C" fn LLVMFuzzerTestOneInput(data: *const u8, size: usize) -> i32 {
    // SAFETY: libFuzzer lends that many bytes; of none the pointer may be null.
    let data = if size == 0 { &[] } else { unsafe { std::slice::from_raw_parts(data, size) } };
    let call = taken(data);
    STATE.with_borrow_mut(|state| {
        let state = state.get_or_insert_with(|| State { server: library::start(), met: 0, news: 0 });
        state.compare(&call);
    });
    0
}
