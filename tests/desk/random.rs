//! Random lines. A run of numbers is the same each time, so that a difference can be looked at again.

use crate::independent::leap::{change, List};
use crate::independent::lines::steps;
use crate::independent::text::spelled;
use crate::independent::time::{Handed, Moment, Record, Scale};

const DAY: u64 = 86_400_000_000;
const SECOND: u64 = 1_000_000;
const PREFIXES: [(&[u8], Scale); 4] = [(b"", Scale::Utc), (b"UTC=", Scale::Utc), (b"TAI=", Scale::Tai), (b"GPS=", Scale::Gps)];

struct Random(u64);

impl Random {
    /// A count that is stirred: each bit of it moves about half of the result's.
    fn next(&mut self) -> u64 {
        self.0 = self.0.wrapping_add(0x9e37_79b9_7f4a_7c15);
        let once = (self.0 ^ (self.0 >> 32)).wrapping_mul(0xd6e8_feb8_6659_fd93);
        let twice = (once ^ (once >> 32)).wrapping_mul(0xd6e8_feb8_6659_fd93);
        twice ^ (twice >> 32)
    }

    fn below(&mut self, n: u64) -> u64 {
        (self.next() >> 11) % n
    }

    fn from_to(&mut self, first: i64, last: i64) -> i64 {
        first + self.below((last - first + 1) as u64) as i64
    }

    fn pick<T: Copy>(&mut self, from: &[T]) -> T {
        from[self.below(from.len() as u64) as usize]
    }
}

/// Near a step, near an end of a span or of the list, or anywhere.
fn moment(random: &mut Random, steps: &[i64]) -> Moment {
    let day = match random.below(8) {
        0..=2 => random.pick(steps) - random.below(2) as i64,
        3 => random.pick(&[-10227, -7300, 9131, 36524]) + random.from_to(-1, 1),
        4 => random.from_to(-10400, 36700),
        _ => random.from_to(-10227, 9131),
    };
    let micro = match random.below(4) {
        0 => DAY - 20 * SECOND + random.below(21 * SECOND),
        1 => random.pick(&[0, 1, SECOND - 1, DAY - 1, DAY, DAY + SECOND - 1]),
        _ => random.below(DAY),
    };
    Moment { day, micro }
}

fn damaged(random: &mut Random, mut line: Vec<u8>) -> Vec<u8> {
    let at = random.below(line.len() as u64) as usize;
    match random.below(10) {
        0 => line.truncate(at),
        1 => line.extend(vec![random.next() as u8; 1 + random.below(9) as usize]),
        2 => line[at] ^= 1 << random.below(8),
        3..=5 => line[at] = b'0' + random.below(10) as u8,
        6 => line[at] = random.next() as u8,
        7 => line.push(b'\r'),
        8 => line.swap(at, 0),
        _ => line = (0..random.below(80)).map(|_| random.next() as u8).collect(),
    }
    line
}

/// Whole lines, and at the end as much of one as brings them to that many bytes.
pub fn lines(seed: u64, bytes: usize) -> Vec<u8> {
    let (mut random, days) = (Random(seed), steps());
    let mut made = Vec::with_capacity(bytes + 64);
    while made.len() < bytes {
        let (prefix, _) = random.pick(&PREFIXES);
        let micros = random.below(2) == 0;
        let line = [prefix, &spelled(moment(&mut random, &days), micros)].concat();
        made.extend(if random.below(5) == 0 { damaged(&mut random, line) } else { line });
        made.push(b'\n');
    }
    made.truncate(bytes);
    made
}

/// For the benchmark: UTC, TAI and GPS in the four forms, half of the lines UTC, any time from 1972 (GPS: 1980) to 2024. Of a hundred
/// lines one tells an instant within a second 60, and one each is too long, has a bad character, a bad date, or a second 60 that its
/// day or its scale lacks.
pub fn mix(seed: u64, lines: u64) -> Vec<u8> {
    let (mut random, days) = (Random(seed), steps());
    let offsets: Vec<u64> = (10..38).collect();
    let list = List { days: &days, offsets: &offsets, last: 9131 };
    let mut made = Vec::new();
    for _ in 0..lines {
        let (prefix, scale) = random.pick(&PREFIXES);
        let micros = random.below(2) == 0;
        let kind = random.below(100);
        let utc = match kind {
            0 => Moment { day: random.pick(&days[1..]) - 1, micro: DAY + random.below(SECOND) },
            1 => Moment { day: random.from_to(8000, 8100), micro: DAY + random.below(SECOND) },
            _ => Moment { day: random.from_to(scale.first_day(), 9130), micro: random.below(DAY) },
        };
        let record = Record::plain(Scale::Utc, utc);
        let moment = if kind == 0 { change(Handed::Record(record), scale, &list).unwrap_or(record).moment } else { utc };
        let mut line = [prefix, &spelled(moment, micros)].concat();
        let start = prefix.len();
        match kind {
            2 => line.push(b' '),
            3 => line[start + 13] = b'x',
            4 => line[start..start + 6].copy_from_slice(b"31-FEB"),
            _ => {}
        }
        made.extend(line);
        made.push(b'\n');
    }
    made
}
