use super::{answered, bytes_of, handed, timed, Answer, Call, Function, Pair, Random};
use crate::independent::calendar::{day_of, Date};
use crate::independent::leap::{change, List};
use crate::independent::lines::steps as published;
use crate::independent::time::{moment_at, since_day_0, Moment, Scale};

pub const PAIRS: &[Pair] = &[
    (Function::ListAccepted, make_accepted, model_accepted),
    (Function::Change, make_change, model_change),
];

/// Firsts of months, rising, from January 1972 on.
fn made_up(random: &mut Random, steps: u64) -> Vec<i64> {
    let mut month = 0;
    let mut days = Vec::new();
    for _ in 0..steps {
        days.push(day_of(&Date { year: 1972 + month as i64 / 12, month: month % 12 + 1, day: 1 }).expect("a date"));
        month += 1 + random.below(1530 / steps.max(1));
        if month > 1536 {
            break;
        }
    }
    days
}

pub struct Made {
    days: Vec<i64>,
    offsets: Vec<u64>,
    last: i64,
}

fn good(random: &mut Random) -> Made {
    let mut days = match random.below(3) {
        0 => published(),
        1 => published()[..1 + random.below(28) as usize].to_vec(),
        _ => {
            let steps = 1 + random.below(64);
            made_up(random, steps)
        }
    };
    days.truncate(64);
    let least = days.last().expect("a step") - 1;
    let last = match random.below(4) {
        0 => least.max(-10227),
        1 => 36524,
        2 => 9131.max(least),
        _ => least.max(-10227) + random.below((36525 - least.max(-10227)) as u64) as i64,
    };
    let offsets = (10..).take(days.len()).collect();
    Made { days, offsets, last }
}

/// A list that is accepted, or one with a fault.
pub fn made(random: &mut Random, faulty: u64) -> Made {
    let mut list = good(random);
    if !random.one_in(faulty) {
        return list;
    }
    let at = random.below(list.days.len() as u64) as usize;
    match random.below(14) {
        0 => list.days.clear(),
        1 => {
            list.days.pop();
        }
        2 => {
            list.offsets.pop();
        }
        3 => list.days[at] += random.pick(&[-1, 1, 31]),
        4 => list.offsets[at] = list.offsets[at].wrapping_add(random.pick(&[1, u64::MAX, 5])),
        5 => list.last = random.pick(&[-10228, 36525, i64::MIN, i64::MAX]),
        6 => list.last = list.days[list.days.len() - 1] - 2,
        7 => list.days[at] = list.days[at / 2],
        8 => list.days[0] = random.pick(&[-10228, -10196, 0]),
        9 => list.offsets[0] = random.pick(&[0, 9, 11, 19]),
        10 => {
            list.days = made_up(random, 66);
            list.offsets = (10..).take(list.days.len()).collect();
            list.last = 36524;
        }
        11 => list.days[at] = random.next() as i64,
        12 => list.offsets[at] = random.next(),
        _ => list.days.swap(at, at / 2),
    }
    list
}

impl Made {
    fn as_list(&self) -> List<'_> {
        List { days: &self.days, offsets: &self.offsets, last: self.last }
    }

    /// TAI minus UTC on a day, in microseconds; 0 where the list does not say.
    pub fn difference(&self, day: i64) -> i128 {
        let says = day >= -10227 && self.as_list().accepted();
        if says { self.as_list().difference(day).unwrap_or(0) } else { 0 }
    }

    /// The TAI count of a UTC time, as far as the list says.
    pub fn place(&self, moment: Moment) -> i128 {
        since_day_0(moment) + self.difference(moment.day)
    }

    /// The UTC time of a TAI count, or where it would lie in days of 86,400 s.
    pub fn moment_at(&self, place: i128) -> Moment {
        let known = if self.as_list().accepted() { self.as_list().to_utc(place).ok() } else { None };
        known.unwrap_or_else(|| moment_at(place))
    }

    pub fn ends_before(&self, day: i64) -> bool {
        self.last < day
    }

    /// The list as it was when it ended with a day of the span; one with a fault stays as it is.
    pub fn end_with(&mut self, day: i64) {
        if self.as_list().accepted() {
            self.days.retain(|&step| step <= day + 1);
            self.offsets.truncate(self.days.len());
            self.last = day;
        }
    }

    /// The last day, as a word.
    pub fn last(&self) -> u64 {
        self.last as u64
    }

    /// The slices of days and of offsets.
    pub fn slices(&self) -> [Vec<u8>; 2] {
        [self.days.iter().flat_map(|day| day.to_le_bytes()).collect(), bytes_of(&self.offsets)]
    }
}

/// The list of a call.
pub fn with<T>(call: &Call, use_it: impl FnOnce(&List) -> T) -> T {
    let days: Vec<i64> = call.list("days").iter().map(|&day| day as i64).collect();
    use_it(&List { days: &days, offsets: &call.list("offsets"), last: call.number("last") as i64 })
}

fn make_accepted(function: Function, random: &mut Random) -> Call {
    let list = made(random, 2);
    Call { function, words: vec![list.last()], slices: list.slices().into() }
}

fn model_accepted(call: &Call) -> Answer {
    answered(call, &[u64::from(with(call, |list| list.accepted()))])
}

const SECOND: u64 = 1_000_000;

/// The day of a step, or the first day after the list's end.
pub fn any_step(random: &mut Random, list: &Made) -> i64 {
    match random.below(4) {
        0 => list.last.clamp(-20_000, 40_000) + 1,
        _ if list.days.is_empty() => 0,
        _ => list.days[random.below(list.days.len() as u64) as usize].clamp(-20_000, 40_000),
    }
}

fn near(random: &mut Random, step: i64) -> (i64, u64) {
    match random.below(5) {
        0 => (step - 1, 86_400 * SECOND + random.below(SECOND)),
        1 => (step - 1, 86_340 * SECOND + random.below(60 * SECOND)),
        2 => (step, random.below(70 * SECOND)),
        3 => (step + random.pick(&[0, 1]), random.pick(&[0, 86_400]) * SECOND + random.below(SECOND)),
        _ => (step + random.below(3) as i64 - 1, random.below(86_400) * SECOND),
    }
}

/// A time near a step or near the list's end, as a record.
pub fn near_step(random: &mut Random, list: &Made) -> (i64, u64) {
    let step = any_step(random, list);
    near(random, step)
}

/// A time in the second before a step, in second 60 or in the second after it, at their edges too; or near it.
pub fn about(random: &mut Random, step: i64) -> Moment {
    let any = random.below(SECOND);
    let within = random.pick(&[0, 1, SECOND - 1, any]);
    let (day, micro) = match random.below(8) {
        0 | 1 => (step - 1, 86_399 * SECOND + within),
        2 | 3 => (step - 1, 86_400 * SECOND + within),
        4 | 5 => (step, within),
        _ => near(random, step),
    };
    Moment { day, micro }
}

fn make_change(function: Function, random: &mut Random) -> Call {
    let list = made(random, 8);
    let mut words = handed::words(random);
    if !random.one_in(3) {
        let (day, micro) = near_step(random, &list);
        words[0] = u64::from(random.one_in(12));
        words[2] = day as u64;
        words[3] = micro;
    }
    if random.one_in(10) {
        // where a change leaves a span
        let (day, micro) = random.pick(&[(-10227, 0), (-10227, 9_999_999), (-7300, 0), (-7300, 18_999_999), (36524, 86_399_999_999), (36524, 86_390_000_000)]);
        words[0] = 0;
        words[2] = day as u64;
        words[3] = micro + random.below(2);
    }
    words.extend([handed::scale_code(random), list.last()]);
    Call { function, words, slices: list.slices().into() }
}

fn model_change(call: &Call) -> Answer {
    let (handed, to) = (handed::of(call), Scale::coded(call.number("to_scale")));
    let (Some(handed), Some(to)) = (handed, to) else { return answered(call, &[3, to.map_or(0, Scale::code)]) };
    timed(call, to, with(call, |list| change(handed, to, list)))
}
