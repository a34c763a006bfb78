//! Runs of SIRAL packets: of one second, with totals up to its end and past it, with a field of one packet another, with bytes
//! damaged; and counts that are told.

use super::{any, damaged, laid, room, Answer, Call, Function, Pair, Random};
use crate::independent::layouts::field;
use crate::independent::runs::{dated, Run};

pub const PAIRS: &[Pair] = &[(Function::SiralRun, make_run, model_run)];

const DAY: u64 = 86_400_000_000;
/// The last total that is answered.
const MOST: u64 = 484_848;
/// The bytes of a packet's fields, and where the values of the first three end.
const WIDTHS: [usize; 4] = [2, 4, 2, 2];
const LIMITS: [u64; 3] = [65_536, 86_400_000, 1000];

/// How many packets: 0 to 40, and often few.
fn many(random: &mut Random) -> usize {
    let most = if random.one_in(3) { 4 } else { 41 };
    random.below(most) as usize
}

/// Units to each packet from the one before, to the first from what is told: less than a roll, and 0 between equal neighbours.
fn steps(random: &mut Random, count: usize) -> Vec<u64> {
    let most = random.pick(&[1, 100, 12_000, 65_536]);
    let step = |_| match random.below(8) {
        0 | 1 => 0,
        2 => random.pick(&[0, 1, 65_535]),
        _ => random.below(most),
    };
    (0..count).map(step).collect()
}

/// What is told, at times more than a second has, and the totals of so many packets.
fn totals(random: &mut Random, count: usize) -> (u64, Vec<u64>) {
    let (end, many) = (MOST + random.below(2), count as u64);
    // a whole second from its beginning
    if many >= 8 && random.one_in(8) {
        return (0, (1..=many).map(|i| end * i / many).collect());
    }
    let steps = steps(random, count);
    let length: u64 = steps.iter().sum();
    let told = match random.below(12) {
        0 => random.pick(&[65_535, 65_536, MOST, MOST + 1, u64::MAX]),
        1 => random.next() >> random.below(64),
        2 | 3 => random.below(MOST),
        // the last total is the second's last, or one more
        4 | 5 => end.saturating_sub(length),
        _ => 0,
    };
    let next = |last: &mut u64, step| {
        *last = last.wrapping_add(step);
        Some(*last)
    };
    (told, steps.into_iter().scan(told, next).collect())
}

/// Day, millisecond and microsecond: often such that one of the totals comes to midnight or a microsecond before it, often on the
/// last day of the span.
fn second(random: &mut Random, totals: &[u64]) -> [u64; 3] {
    let day = match random.below(8) {
        0 | 1 => 36_524,
        2 => random.pick(&[0, 36_523, 36_525, 65_535]),
        _ => random.below(36_525),
    };
    let within: Vec<u64> = totals.iter().copied().filter(|&total| total <= MOST).collect();
    let micro = match random.below(4) {
        0 if !within.is_empty() => (DAY - random.pick(&within) * 33 / 16 - random.below(2)).min(DAY - 1),
        1 => DAY - 1 - random.below(1_000_000),
        _ => random.below(DAY),
    };
    [day, micro / 1000, micro % 1000]
}

/// One of the three fields of a packet is another, within its limit.
fn differs(random: &mut Random, packets: &mut [[u64; 4]]) {
    let (at, field) = (random.below(packets.len() as u64) as usize, random.below(3) as usize);
    let (limit, value) = (LIMITS[field], &mut packets[at][field]);
    *value = (*value + random.pick(&[1, limit - 1, limit / 2])) % limit;
}

/// The millisecond or the microsecond of a packet is over its limit.
fn over(random: &mut Random, packets: &mut [[u64; 4]]) {
    let (at, field) = (random.below(packets.len() as u64) as usize, 1 + random.below(2) as usize);
    let more = (1 << (8 * WIDTHS[field])) - LIMITS[field];
    packets[at][field] = LIMITS[field] + if random.one_in(2) { random.pick(&[0, more - 1]) } else { random.below(more) };
}

fn make_run(function: Function, random: &mut Random) -> Call {
    let count = many(random);
    let (told, totals) = totals(random, count);
    let [day, milli, micro] = second(random, &totals);
    let mut packets: Vec<[u64; 4]> = totals.iter().map(|&total| [day, milli, micro, total]).collect();
    if count > 0 {
        match random.below(12) {
            0 => differs(random, &mut packets),
            1 => over(random, &mut packets),
            2 => {
                differs(random, &mut packets);
                over(random, &mut packets);
            }
            _ => {}
        }
    }
    // of a total a field has the last 16 bits
    let fields = packets.iter().flat_map(|packet| WIDTHS.into_iter().zip(*packet));
    let mut bytes: Vec<u8> = fields.flat_map(|(width, value)| field(width, value)).collect();
    if count > 0 && random.one_in(8) {
        bytes = damaged(random, bytes);
    }
    let places = room(random, count);
    Call { function, words: vec![told], slices: vec![bytes, any(random, 8 * places)] }
}

fn model_run(call: &Call) -> Answer {
    let run = dated(call.slice("bytes"), call.number("told"));
    let image = |run: Run| ([run.dates.len() as u64, run.last], run.dates.into_iter().flat_map(i64::to_le_bytes).collect());
    laid(call, "dates", run.map(image))
}
