//! The season's file and the correlations that it is written of: as they should be, with one rule broken, with bytes damaged; and
//! receipts at and beside the ends of its covers.

use super::{answered, any, bytes_of, clock, damaged, laid, room, written, Answer, Call, Function, Pair, Random};
use crate::independent::clock::Clock;
use crate::independent::correlation::Correlation;
use crate::independent::layouts::field;
use crate::independent::season::{self, Entry};
use crate::independent::time::{moment_at, since_day_0, Scale};

pub const PAIRS: &[Pair] = &[
    (Function::SeasonRead, make_read, model_read),
    (Function::SeasonWrite, make_write, model_write),
    (Function::SeasonCovering, make_covering, model_covering),
];

const DAY: i64 = 86_400_000_000;
/// The first and the last microsecond of the TAI span.
const BEGIN: i64 = -10227 * DAY;
const END: i64 = 36525 * DAY - 1;

/// How many entries: few mostly; seldom as many as there may be, or one more.
fn many(random: &mut Random) -> usize {
    match random.below(800) {
        0 => 512,
        1 => 513,
        2 => random.below(514) as usize,
        3..=10 => random.below(40) as usize,
        _ => random.below(5) as usize,
    }
}

/// Ticks to one side, at most so many.
fn reach(random: &mut Random, most: u64) -> u64 {
    match random.below(6) {
        0 => 0,
        1 => 1,
        2 => most,
        3 => random.below(1000).min(most),
        _ => random.below(most + 1),
    }
}

fn covers(one: &Correlation) -> (i64, i64) {
    let (back, ahead) = one.ends();
    (one.time(back) as i64, one.time(ahead) as i64)
}

/// Accepted correlations whose covers rise, the next microsecond or later; seldom one touches or overlaps the one before, and
/// seldom the first or the last reference lies a microsecond outside the span.
fn rising(random: &mut Random, count: usize) -> Vec<Correlation> {
    // together they take less than the span
    let each = (END - BEGIN) as u64 / (count as u64 + 1) / 3;
    let most = (each / 3907).min(1 << 31);
    let touching = if random.one_in(12) { random.below(count as u64 + 1) as usize } else { count };
    let (mut all, mut last) = (Vec::new(), 0);
    for i in 0..count {
        let gap = match random.below(4) {
            _ if i == touching => -(random.below(2) as i64),
            0 => 1,
            _ => 1 + random.below(each) as i64,
        };
        let period = 3_906_000_000 + if random.one_in(4) { random.pick(&[0, 500_000]) } else { random.below(500_001) };
        let (back, ahead) = (reach(random, most), reach(random, most.min((1 << 31) - 1)));
        let tick = if random.one_in(4) { random.pick(&[0, u32::MAX]) } else { random.next() as u32 };
        let mut one = Correlation { tick, scale: Scale::Tai, reference: moment_at(0), period, back, ahead };
        one.reference = moment_at(i128::from(last + gap - covers(&one).0));
        last = covers(&one).1;
        all.push(one);
    }
    let place = |one: Option<&Correlation>| one.map_or(0, |one| since_day_0(one.reference) as i64);
    let (earliest, latest) = (BEGIN - place(all.first()), END - place(all.last()));
    let moved = match random.below(16) {
        0 => earliest,
        1 => latest,
        2 if random.one_in(2) => random.pick(&[earliest - 1, latest + 1]),
        _ => earliest + random.below((latest - earliest) as u64 + 1) as i64,
    };
    for one in &mut all {
        one.reference = moment_at(since_day_0(one.reference) + i128::from(moved));
    }
    all
}

/// One that is not accepted, or another order.
fn unaccepted(random: &mut Random, all: &mut [Correlation]) {
    let Some(final_one) = all.len().checked_sub(1) else { return };
    let i = random.below(all.len() as u64) as usize;
    match random.below(6) {
        0 => all[i].period = random.pick(&[3_905_999_999, 3_906_500_001]),
        1 => all[i].period = random.pick(&[0, 1 << 40]),
        2 => all[0].back = (1 << 31) + 1,
        3 => all[final_one].ahead = 1 << 31,
        4 => all[final_one].reference.day = 36525,
        _ => all.swap(i, i.saturating_sub(1)),
    }
}

/// The file as numbers: first, last, position; tick, reference, period, back, ahead.
struct File {
    count: u64,
    contents: Vec<[u64; 3]>,
    bodies: Vec<[u64; 5]>,
}

impl File {
    fn of(all: &[Correlation]) -> File {
        let body = |one: &Correlation| [one.tick.into(), since_day_0(one.reference) as u64, one.period, one.back, one.ahead];
        let covers: Vec<(i64, i64)> = all.iter().map(covers).collect();
        File { bodies: all.iter().map(body).collect(), ..File::covering(&covers) }
    }

    /// Bodies of zeroes.
    fn covering(covers: &[(i64, i64)]) -> File {
        let position = |i: usize| (2 + 20 * covers.len() + 28 * i) as u64;
        let contents = covers.iter().enumerate().map(|(i, &(first, last))| [first as u64, last as u64, position(i)]).collect();
        File { count: covers.len() as u64, contents, bodies: vec![[0; 5]; covers.len()] }
    }

    /// One number of the count or of the contents is another.
    fn damage(&mut self, random: &mut Random) {
        let many = self.contents.len() as u64;
        if many == 0 || random.one_in(8) {
            let other = random.next();
            self.count = random.pick(&[self.count + 1, self.count.wrapping_sub(1), 512, 513, other]);
            return;
        }
        let (i, next) = (random.below(many) as usize, random.below(many) as usize);
        let number = random.below(3) as usize;
        let (first, last, begins) = (self.contents[i][0], self.contents[i][1], self.contents[next][0]);
        self.contents[i][number] = match random.below(6) {
            0 => random.next(),
            1 => begins,
            2 if number < 2 => [last.wrapping_add(1), first.wrapping_sub(1)][number],
            _ => self.contents[i][number].wrapping_add(random.pick(&[1, u64::MAX, 28, 1 << 31])),
        };
        if random.one_in(8) {
            self.contents.swap(i, next);
            self.bodies.swap(i, next);
        }
    }

    fn bytes(&self) -> Vec<u8> {
        let mut all = field(2, self.count);
        let contents = self.contents.iter().flat_map(|numbers| numbers.iter().zip([8, 8, 4]));
        let bodies = self.bodies.iter().flat_map(|numbers| numbers.iter().zip([4, 8, 8, 4, 4]));
        all.extend(contents.chain(bodies).flat_map(|(&number, width)| field(width, number)));
        all
    }
}

fn make_read(function: Function, random: &mut Random) -> Call {
    let count = many(random);
    let mut all = rising(random, count);
    if random.one_in(6) {
        unaccepted(random, &mut all);
    }
    let mut file = File::of(&all);
    if random.one_in(6) {
        file.damage(random);
    }
    let bytes = if random.one_in(6) { damaged(random, file.bytes()) } else { file.bytes() };
    let words = 8 * room(random, 9 * count);
    Call { function, words: Vec::new(), slices: vec![bytes, any(random, words)] }
}

/// An entry as nine words.
fn entry_words(entry: &Entry) -> Vec<u64> {
    let mut words = vec![entry.cover.first as u64, entry.cover.last as u64];
    words.extend(correlation_words(&entry.correlation));
    words
}

fn correlation_words(one: &Correlation) -> [u64; 7] {
    let day = one.reference.day as u64;
    [one.tick.into(), one.scale.code(), day, one.reference.micro, one.period, one.back, one.ahead]
}

fn model_read(call: &Call) -> Answer {
    let entries = season::read(call.slice("bytes"));
    laid(call, "words", entries.map(|all| ([all.len() as u64], bytes_of(&all.iter().flat_map(entry_words).collect::<Vec<_>>()))))
}

/// One word is another, or there are more or fewer of them.
fn reworded(random: &mut Random, words: &mut Vec<u64>) {
    let more = random.below(7) as usize;
    if words.is_empty() || random.one_in(8) {
        words.resize(words.len() + more, random.next());
        return;
    }
    if random.one_in(8) {
        words.truncate(words.len() - more);
        return;
    }
    let at = random.below(words.len() as u64) as usize;
    words[at] = match (at % 7, random.below(4)) {
        // another scale, or none
        (1, _) => random.pick(&[1, 2, 3, 1 << 32, u64::MAX]),
        (_, 0) => words[at].wrapping_neg(),
        (0 | 5 | 6, 1) => words[at] | 1 << 32,
        (3, 1) => 86_400_000_000 + random.below(1_000_001),
        (_, 2) => random.pick(&[u64::MAX, 1 << 63, i64::MAX as u64]),
        _ => words[at].wrapping_add(random.pick(&[1, u64::MAX])),
    };
}

fn make_write(function: Function, random: &mut Random) -> Call {
    let count = many(random);
    let mut all = rising(random, count);
    if random.one_in(6) {
        unaccepted(random, &mut all);
    }
    let mut words: Vec<u64> = all.iter().flat_map(correlation_words).collect();
    if random.one_in(4) {
        reworded(random, &mut words);
    }
    let lent = room(random, 2 + 48 * count);
    Call { function, words: Vec::new(), slices: vec![bytes_of(&words), any(random, lent)] }
}

fn signed(words: &[u64]) -> Vec<i64> {
    words.iter().map(|&word| word as i64).collect()
}

fn model_write(call: &Call) -> Answer {
    written(call, season::write(&signed(&call.list("words"))))
}

/// Covers that rise, of any 64 bits.
fn anywhere(random: &mut Random, count: usize) -> Vec<(i64, i64)> {
    let end = |random: &mut Random| match random.below(8) {
        0 => random.pick(&[i64::MIN, i64::MAX, -1, 0, 1]),
        1 => random.pick(&[BEGIN, END]) + random.below(3) as i64 - 1,
        2 => random.next() as i64,
        _ => BEGIN + random.below((END - BEGIN) as u64) as i64,
    };
    let mut ends: Vec<i64> = (0..2 * count).map(|_| end(random)).collect();
    ends.sort_unstable();
    ends.dedup();
    ends.chunks_exact(2).map(|two| (two[0], if random.one_in(6) { two[0] } else { two[1] })).collect()
}

fn make_covering(function: Function, random: &mut Random) -> Call {
    let count = many(random);
    let mut file = if random.one_in(2) { File::of(&rising(random, count)) } else { File::covering(&anywhere(random, count)) };
    // a receipt between two covers comes too
    let entry = random.below(file.contents.len() as u64 + 2) as usize;
    let at = file.contents.get(entry).map_or(0, |&[first, last, _]| match random.below(6) {
        0 => first.wrapping_sub(1),
        1 => last.wrapping_add(1),
        2 => first,
        3 => last,
        _ => first.wrapping_add(last.wrapping_sub(first) / 2),
    });
    if random.one_in(6) {
        file.damage(random);
    }
    let mut bytes = if random.one_in(8) { damaged(random, file.bytes()) } else { file.bytes() };
    let bodies = (2 + 20 * file.contents.len()).min(bytes.len());
    if random.one_in(2) {
        bytes[bodies..].iter_mut().for_each(|byte| *byte = random.next() as u8);
    }
    let receipt = clock::receipt(random, moment_at(i128::from(at as i64)));
    Call { function, words: receipt.to_vec(), slices: vec![bytes] }
}

fn model_covering(call: &Call) -> Answer {
    match season::covering(call.slice("bytes"), clock::received(call)) {
        Ok(cover) => answered(call, &[0, cover.first as u64, cover.last as u64]),
        Err(number) => answered(call, &[number]),
    }
}
