//! Damage to words, to slices, to leap lists and to runs: flipped, cut, doubled, spliced with those of another call.

use crate::calls::{bytes_of, words_of, Call, Function, Random};
use crate::library::lengths;

/// The most bytes of a slice, those of a new one, and the most words of a slice: no season has more.
const MOST: usize = 1 << 15;
const NEW: usize = 8192;
const WORDS: usize = 3600;
/// The bytes of a packet of a run, and where its extra counter stands.
const PACKET: usize = 10;
const EXTRA: usize = 8;

fn range(random: &mut Random, length: usize) -> std::ops::Range<usize> {
    let begin = random.below(length as u64 + 1) as usize;
    let left = (length - begin) as u64;
    let most = if random.one_in(8) { left } else { left.min(8) };
    begin..begin + random.below(most + 1) as usize
}

fn any(random: &mut Random, length: usize) -> Vec<u8> {
    (0..length).map(|_| random.next() as u8).collect()
}

fn length(random: &mut Random) -> usize {
    if random.one_in(30) { random.below(NEW as u64 + 1) as usize } else { random.below(65) as usize }
}

/// The bytes from `at` on as a number, most significant first, a little more or less.
fn stepped(random: &mut Random, all: &mut [u8], at: usize) {
    let width = random.pick(&[1, 2, 4, 8]).min(all.len() - at);
    let field = &mut all[at..at + width];
    let number = field.iter().fold(0u64, |n, &b| n << 8 | u64::from(b)).wrapping_add(random.near(0, 3) as u64);
    let bytes = number.to_be_bytes();
    field.copy_from_slice(&bytes[8 - width..]);
}

pub fn bytes(random: &mut Random, mut all: Vec<u8>, other: &[u8]) -> Vec<u8> {
    let some = range(random, all.len());
    if all.is_empty() {
        let n = length(random);
        return if random.one_in(2) { other.to_vec() } else { any(random, n) };
    }
    let (at, last) = (random.below(all.len() as u64) as usize, all.len() - 1);
    match random.below(15) {
        0 | 1 => all[at] ^= 1 << random.below(8),
        2 => all[at] = random.pick(b"\x00\xff\x7f\x80\x66\x01\x02 -:.=09AZaz\n\r"),
        3 => all[at] = random.next() as u8,
        4 => all[at] = b'0' + random.below(10) as u8,
        5 => drop(all.drain(some)),
        6 => all.truncate(at),
        7 => {
            let twice = all[some.clone()].to_vec();
            drop(all.splice(some.end..some.end, twice));
        }
        8 => {
            let n = random.below(9) as usize;
            let new = any(random, n);
            drop(all.splice(at..at, new));
        }
        9 => {
            let tail = range(random, other.len()).start;
            all.truncate(at);
            all.extend(&other[tail..]);
        }
        10 => {
            let from = range(random, other.len());
            let to = at..(at + from.len()).min(all.len());
            all.splice(to, other[from].iter().copied());
        }
        // an empty range may stand behind the last byte
        11 => all.swap(at, some.start.min(last)),
        12 => stepped(random, &mut all, at),
        13 => {
            let n = random.pick(&lengths());
            all.resize(n, random.next() as u8);
        }
        _ => {
            let n = length(random);
            all = any(random, n);
        }
    }
    all
}

/// Where rules begin or end, and where arithmetic could.
const EDGES: [u64; 24] = [
    0, 1, 2, 3, 999, 1000, 65_535, 65_536, 484_848, 484_849, 86_400_000_000, 86_399_999_999, 86_401_000_000, 36_524, 36_525,
    1 << 31, u32::MAX as u64, 1 << 32, 5_662_310_400, 1 << 47, 1 << 48, 1 << 56, i64::MAX as u64, 1 << 63,
];

fn word(random: &mut Random, old: u64, other: u64) -> u64 {
    match random.below(10) {
        0 | 1 => old ^ 1 << random.below(64),
        2 | 3 => old.wrapping_add(random.near(0, 3) as u64),
        4 => old.wrapping_add(random.near(0, 1 << 20) as u64),
        5 => random.pick(&EDGES),
        6 => random.pick(&EDGES).wrapping_neg(),
        7 => other,
        8 => random.next() >> random.below(64),
        _ => old.wrapping_neg(),
    }
}

fn steps(random: &mut Random, all: &mut Vec<u64>, other: &[u64]) {
    let some = range(random, all.len());
    match random.below(6) {
        0 => drop(all.drain(some)),
        1 => {
            let twice = all[some.clone()].to_vec();
            drop(all.splice(some.end..some.end, twice));
        }
        2 => {
            let from = range(random, other.len());
            drop(all.splice(some, other[from].iter().copied()));
        }
        _ if all.is_empty() => all.extend(other),
        _ => {
            let at = random.below(all.len() as u64) as usize;
            all[at] = word(random, all[at], all[at / 2]);
        }
    }
    all.truncate(WORDS);
}

/// A slice of elements of so many bytes.
fn slice(random: &mut Random, all: Vec<u8>, other: &[u8], width: usize) -> Vec<u8> {
    if width == 8 {
        let mut words = words_of(&all);
        steps(random, &mut words, &words_of(other));
        return bytes_of(&words);
    }
    let mut all = bytes(random, all, other);
    all.truncate(all.len().min(MOST) / width * width);
    all
}

/// A slice that is lent: beside the image's length, or of any.
fn lent(random: &mut Random, image: usize, width: usize) -> Vec<u8> {
    let n = match random.below(4) {
        0 => random.near(image as i64, 2).max(0) as usize,
        1 => length(random),
        2 => image,
        _ => random.below(41) as usize,
    };
    any(random, (n * width).min(MOST))
}

/// Where the slices and the word of a leap list stand.
#[derive(Clone, Copy)]
struct List {
    days: usize,
    offsets: usize,
    last: usize,
}

impl List {
    fn of(function: Function) -> Option<List> {
        let shape = function.shape();
        Some(List { days: shape.slice("days")?, offsets: shape.slice("offsets")?, last: shape.words("last")?.start })
    }

    fn damage(self, random: &mut Random, call: &mut Call, other: &Call) {
        let List { days, offsets, last } = self;
        match random.below(5) {
            0 => call.words[last] = word(random, call.words[last], other.words[last]),
            1 => call.slices[days] = slice(random, std::mem::take(&mut call.slices[days]), &other.slices[days], 8),
            2 => call.slices[offsets] = slice(random, std::mem::take(&mut call.slices[offsets]), &other.slices[offsets], 8),
            3 => {
                // days and offsets cut alike: a shorter list, not a broken one
                let n = random.below(call.slices[days].len() as u64 / 8 + 1) as usize;
                call.slices[days].truncate(8 * n);
                call.slices[offsets].truncate(8 * n);
            }
            _ => {
                let end = words_of(&call.slices[days]).last().copied();
                call.words[last] = end.map_or(0, |day| day.wrapping_add(random.near(0, 2) as u64));
            }
        }
    }
}

/// Two packets of a run exchanged, one in the place of another, or one with another extra counter: the run stays of one second.
fn packets(random: &mut Random, all: &mut [u8]) {
    let count = (all.len() / PACKET) as u64;
    if count == 0 {
        return;
    }
    let [at, other] = [0; 2].map(|_| random.below(count) as usize * PACKET);
    match random.below(4) {
        0 => (0..PACKET).for_each(|byte| all.swap(at + byte, other + byte)),
        1 => all.copy_within(other..other + PACKET, at),
        2 => stepped(random, &mut all[at + EXTRA..at + PACKET], 0),
        _ => all[at + EXTRA..at + PACKET].copy_from_slice(&any(random, PACKET - EXTRA)),
    }
}

/// What is damaged by itself: a word, the leap list, the packets of a run, any other slice.
#[derive(Clone, Copy)]
enum Part {
    Word,
    List(List),
    Packets { at: usize },
    Slice { at: usize, width: usize, is_lent: bool },
}

/// The places of the words, but for a list's, and their bytes.
fn words(function: Function) -> Vec<(usize, usize)> {
    let last = List::of(function).map(|list| list.last);
    function.shape().widths().into_iter().enumerate().filter(|&(at, _)| Some(at) != last).collect()
}

fn parts(function: Function) -> Vec<Part> {
    let list = List::of(function);
    let mut all: Vec<Part> = list.into_iter().map(Part::List).collect();
    let words = words(function).len();
    if words > 0 {
        // a clock's correlation is damaged as often as its list, and what it dates besides
        all.extend(vec![Part::Word; 1 + words / 8]);
    }
    for (at, (_, width, is_lent)) in function.shape().slices().enumerate() {
        if list.is_none_or(|list| ![list.days, list.offsets].contains(&at)) {
            all.push(Part::Slice { at, width, is_lent });
        }
        if function == Function::SiralRun && !is_lent {
            all.push(Part::Packets { at });
        }
    }
    all
}

fn once(random: &mut Random, parts: &[Part], call: &mut Call, other: &Call) {
    match random.pick(parts) {
        Part::Word => {
            let own = words(call.function);
            let (mut at, mut width) = random.pick(&own);
            // a code soon stands for nothing, and then the rest is not looked at
            if width < 8 {
                (at, width) = random.pick(&own);
            }
            call.words[at] = word(random, call.words[at], other.words[at]) & u64::MAX >> (64 - 8 * width);
        }
        Part::List(list) => list.damage(random, call, other),
        Part::Packets { at } => packets(random, &mut call.slices[at]),
        Part::Slice { at, width, is_lent: true } => {
            let image = call.function.shape().image.as_ref();
            let image = image.map_or(0, |image| if image.is_known() { image.length } else { image.length >> random.below(14) });
            call.slices[at] = lent(random, image, width);
        }
        Part::Slice { at, width, .. } => {
            call.slices[at] = slice(random, std::mem::take(&mut call.slices[at]), &other.slices[at], width);
        }
    }
}

/// A call of the comparison, or one of the pool, damaged up to six times, once or twice mostly.
pub fn call(random: &mut Random, function: Function, pool: &[Call]) -> Call {
    let mut call = function.make(random);
    let mut other = function.make(random);
    if !pool.is_empty() && random.one_in(2) {
        call = pool[random.below(pool.len() as u64) as usize].clone();
    }
    if !pool.is_empty() && random.one_in(2) {
        other = pool[random.below(pool.len() as u64) as usize].clone();
    }
    let lengths: Vec<usize> = call.slices.iter().map(Vec::len).collect();
    let parts = parts(function);
    // a function that takes nothing
    if parts.is_empty() {
        return call;
    }
    let most = 1 + random.below(6);
    for _ in 0..1 + random.below(most) {
        once(random, &parts, &mut call, &other);
    }
    // another length hides all other damage behind a 1
    if !random.one_in(3) {
        for part in parts {
            if let Part::Slice { at, width: 1, is_lent: false } = part {
                call.slices[at].resize(lengths[at], random.next() as u8);
            }
        }
    }
    call
}
