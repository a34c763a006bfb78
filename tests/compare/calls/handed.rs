//! Times handed in: records and decimal days, in the span, at its edges, and beyond.

use super::{Call, Random};
use crate::independent::time::{Handed, Mark, Moment, Record, Scale};

const DAY: u64 = 86_400_000_000;

pub fn day(random: &mut Random) -> i64 {
    match random.below(8) {
        0 => random.near(-10227, 3),
        1 => random.near(-7300, 3),
        2 => random.near(36524, 3),
        3 => random.near(0, 3),
        4 => random.pick(&[i64::MIN, i64::MAX, -40001, -40000, 60000, 60001, -39999, 59999]),
        5 if random.one_in(2) => random.next() as i64,
        _ => random.below(46752) as i64 - 10227,
    }
}

pub fn micro(random: &mut Random) -> u64 {
    match random.below(10) {
        0 => random.below(3),
        1 => DAY - 1 - random.below(3),
        2 => DAY + random.below(3),
        3 => DAY + 1_000_000 - 1 - random.below(3),
        4 => DAY + 1_000_000 + random.below(3),
        5 if random.one_in(2) => random.next(),
        6 => random.below(86_400) * 1_000_000,
        _ => random.below(DAY),
    }
}

/// A double near a whole number of microseconds or of halves of them, near an edge, or of any bits.
pub fn decimal(random: &mut Random) -> f64 {
    let whole = match random.below(6) {
        0 => random.near(-10227, 1) as f64,
        1 => random.near(-7300, 1) as f64,
        2 => random.near(36525, 1) as f64,
        3 => 0.0,
        _ => (random.below(46752) as i64 - 10227) as f64,
    };
    match random.below(12) {
        0 => f64::from_bits(random.next()),
        1 => random.pick(&[f64::NAN, f64::INFINITY, f64::NEG_INFINITY, -f64::NAN]),
        2 => random.pick(&[0.0, -0.0, f64::MIN_POSITIVE, -f64::MIN_POSITIVE, 5e-324, -5e-324, f64::MAX, f64::MIN]),
        3 => f64::from_bits(whole.to_bits().wrapping_add(random.below(3)).wrapping_sub(1)),
        4 => whole,
        5 => (random.below(200) as f64 - 100.0) / 2.0 / 86_400_000_000.0,
        // 86,400,000,000 is 10,546,875 * 2^13, so the odd 16384ths of a day are where ties are
        6 => random.near(0, 1 << 29) as f64 / 16384.0,
        7 => random.near(0, 40000) as f64 / f64::from_bits((1023 + random.below(80)) << 52),
        _ => whole + random.below(DAY) as f64 / DAY as f64,
    }
}

pub fn scale_code(random: &mut Random) -> u64 {
    if random.one_in(24) { random.pick(&[3, 4, 255, u64::from(u32::MAX)]) } else { random.below(3) }
}

/// The words of a mark: all kinds, with any source where it may be any or is not looked at; or one that stands for nothing.
fn mark(mut random: Random) -> [u64; 2] {
    let any = random.next();
    let source = random.pick(&[0, 1, 2, 256, u64::from(u32::MAX), 1 << 32, 1 << 32 | 1, 1 << 63, u64::MAX, any]);
    let damaged = random.pick(&[3, 4, 256, 257, 258, 65_536, 1 << 31, u64::from(u32::MAX)]);
    match random.below(24) {
        0 => [damaged, source],
        1 => [1, source],
        2..=9 => [1, random.below(2)],
        10..=17 => [2, source],
        18 => [0, source],
        _ => [0, 0],
    }
}

/// The seven words of a vrk_handed.
pub fn words(random: &mut Random) -> Vec<u64> {
    let kind = if random.one_in(24) { random.pick(&[2, 3, u64::from(u32::MAX)]) } else { random.below(2) };
    let time = [kind, scale_code(random), day(random) as u64, micro(random), decimal(random).to_bits()];
    // aside, so that all else of a call is what it was when times had no marks: the stored answers are of the same times
    [&time[..], &mark(random.aside())].concat()
}

/// What the time of a call stands for, if it stands for anything.
pub fn of(call: &Call) -> Option<Handed> {
    let words = call.numbers("time");
    let scale = Scale::coded(words[1])?;
    match words[0] {
        0 => {
            let moment = Moment { day: words[2] as i64, micro: words[3] };
            Some(Handed::Record(Record { scale, moment, mark: Mark::coded(words[5], words[6])? }))
        }
        1 => Some(Handed::Decimal(scale, f64::from_bits(words[4]))),
        _ => None,
    }
}
