//! The functions of the interface, how their inputs are made, and what the independent program says of each.

mod clock;
mod correlation;
mod decimal;
mod fields;
mod goce;
mod handed;
mod interface;
mod layouts;
mod leap;
mod random;
mod runs;
mod season;
mod shape;
mod text;

use crate::independent::time::{Record, Scale};
use crate::independent::Number;
// Each program that calls uses its own part.
#[allow(unused_imports)]
pub use self::{
    interface::{refusal, Function, ANSWER, FUNCTIONS},
    random::{digest, Random},
    shape::Shape,
};

/// The numbers that a function takes, one after the other, and its slices, each as its bytes.
#[derive(Clone, Debug)]
pub struct Call {
    pub function: Function,
    pub words: Vec<u64>,
    pub slices: Vec<Vec<u8>>,
}

#[derive(Debug, PartialEq)]
pub struct Answer {
    /// The refusal's number or 0, and the values.
    pub words: Vec<u64>,
    /// The lent slices as they are left.
    pub lent: Vec<Vec<u8>>,
}

type Make = fn(Function, &mut Random) -> Call;
type Model = fn(&Call) -> Answer;
type Pair = (Function, Make, Model);

/// Each module lists the functions whose inputs it makes, and what the independent program says of each.
const PAIRS: &[&[Pair]] = &[
    correlation::PAIRS, decimal::PAIRS, fields::PAIRS, goce::PAIRS, layouts::PAIRS, leap::PAIRS, runs::PAIRS, season::PAIRS,
    text::PAIRS,
];

impl Function {
    fn pair(self) -> &'static Pair {
        let found = PAIRS.iter().copied().flatten().find(|(function, ..)| *function == self);
        found.unwrap_or_else(|| panic!("no module of tests/compare/calls makes {}", self.name()))
    }

    pub fn make(self, random: &mut Random) -> Call {
        self.pair().1(self, random)
    }
}

impl Call {
    /// A call without slices.
    fn of(function: Function, words: Vec<u64>) -> Call {
        Call { function, words, slices: Vec::new() }
    }

    /// What the independent program says.
    pub fn model(&self) -> Answer {
        self.function.pair().2(self)
    }

    /// The numbers of a parameter.
    pub fn numbers(&self, name: &str) -> &[u64] {
        let place = self.function.shape().words(name);
        &self.words[place.unwrap_or_else(|| panic!("{} takes no number {name}", self.function.name()))]
    }

    pub fn number(&self, name: &str) -> u64 {
        self.numbers(name)[0]
    }

    pub fn slice(&self, name: &str) -> &[u8] {
        let place = self.function.shape().slice(name);
        &self.slices[place.unwrap_or_else(|| panic!("{} takes no slice {name}", self.function.name()))]
    }

    /// The elements of a slice of 64-bit numbers.
    pub fn list(&self, name: &str) -> Vec<u64> {
        words_of(self.slice(name))
    }

    /// The slices that are lent.
    pub fn lent(&self) -> Vec<Vec<u8>> {
        let lent = self.function.shape().slices().zip(&self.slices).filter(|((.., lent), _)| *lent);
        lent.map(|(_, slice)| slice.clone()).collect()
    }
}

pub fn words_of(slice: &[u8]) -> Vec<u64> {
    slice.chunks(8).map(|eight| u64::from_le_bytes(eight.try_into().expect("eight"))).collect()
}

pub fn bytes_of(words: &[u64]) -> Vec<u8> {
    words.iter().flat_map(|word| word.to_le_bytes()).collect()
}

/// An answer that leaves the lent bytes.
fn answered(call: &Call, words: &[u64]) -> Answer {
    let mut all = words.to_vec();
    all.resize(ANSWER, 0);
    Answer { words: all, lent: call.lent() }
}

/// A record, or a refusal with the empty record of the scale.
fn timed(call: &Call, scale: Scale, time: Result<Record, Number>) -> Answer {
    let (number, Record { scale, moment, mark }) = match time {
        Ok(record) => (0, record),
        Err(number) => (number, Record::empty(scale)),
    };
    answered(call, &[&[number, scale.code(), moment.day as u64, moment.micro], &mark.words()[..]].concat())
}

/// A count, or a refusal.
fn counted(call: &Call, count: Result<u64, Number>) -> Answer {
    match count {
        Ok(count) => answered(call, &[0, count]),
        Err(number) => answered(call, &[number]),
    }
}

/// An image, and the values beside it, on the front of a lent slice, or 13 where it has no room; every byte stays on a refusal.
fn laid<const N: usize>(call: &Call, slice: &str, image: Result<([u64; N], Vec<u8>), Number>) -> Answer {
    let fits = image.and_then(|both| if both.1.len() <= call.slice(slice).len() { Ok(both) } else { Err(13) });
    match fits {
        Ok((values, image)) => {
            let mut answer = answered(call, &[&[0], &values[..]].concat());
            answer.lent[0][..image.len()].copy_from_slice(&image);
            answer
        }
        Err(number) => answered(call, &[number]),
    }
}

/// An image of bytes.
fn written(call: &Call, image: Result<Vec<u8>, Number>) -> Answer {
    laid(call, "out", image.map(|image| ([image.len() as u64], image)))
}

/// Bytes that are lent for an image: too few, as many, or any number.
fn lent(function: Function, random: &mut Random) -> Vec<u8> {
    let image = function.shape().image.as_ref().map_or(0, |image| image.length as u64);
    let length = match random.below(6) {
        0 => random.below(image),
        1 => image,
        _ => random.below(41),
    };
    any(random, length as usize)
}

fn any(random: &mut Random, count: usize) -> Vec<u8> {
    (0..count).map(|_| random.next() as u8).collect()
}

/// Room for so many elements: just as many, more, or too few.
fn room(random: &mut Random, due: usize) -> usize {
    match random.below(6) {
        0 => random.below(due as u64 + 1) as usize,
        1 => due.saturating_sub(1),
        2 | 3 => due,
        _ => due + random.below(20) as usize,
    }
}

/// One byte is another, or the length is.
fn damaged(random: &mut Random, mut bytes: Vec<u8>) -> Vec<u8> {
    let at = random.below(bytes.len() as u64) as usize;
    match random.below(8) {
        0 => bytes.truncate(at),
        1 => bytes.truncate(random.below(3) as usize),
        2 => bytes.resize(bytes.len() + 1 + random.below(48) as usize, random.next() as u8),
        3 => bytes[at] = random.next() as u8,
        _ => bytes[at] ^= 1 << random.below(8),
    }
    bytes
}
