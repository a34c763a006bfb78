//! Windows, receipts and times to be turned back, for the clocks of SBT and of GOCE.

use super::{handed, leap, Call, Function, Random};
use crate::independent::clock::Clock;
use crate::independent::time::{moment_at, Moment, Scale};

const DAY: u64 = 86_400_000_000;
/// The counts that GOCE's window may have, either way; SBT's has fewer.
const FAR: i128 = 1 << 47;

/// How far a window reaches one way, `most` being the farthest.
pub fn reach(random: &mut Random, most: u64) -> u64 {
    match random.below(12) {
        0 => 0,
        1 => 1,
        2 => most,
        3 if random.one_in(3) => most + 1,
        3 if random.one_in(3) => random.next(),
        4 => random.below(1000),
        _ => random.below(most + 1),
    }
}

/// A count of the window, at its ends, or just outside.
pub fn count(random: &mut Random, window: &[u64]) -> i128 {
    let (back, ahead) = (i128::from(window[0].min(1 << 48)), i128::from(window[1].min(1 << 48)));
    match random.below(8) {
        0 => -back,
        1 => ahead,
        2 => -back - 1,
        3 => ahead + 1,
        4 => 0,
        _ => i128::from(random.below((back + ahead + 1) as u64)) - back,
    }
}

/// The time at such a count, or a microsecond beside it.
pub fn moment(random: &mut Random, window: &[u64], time: impl Fn(i128) -> i128) -> Moment {
    let beside = random.pick(&[-1, 0, 0, 0, 1, 2000]);
    let at = if random.one_in(4) { 0 } else { count(random, window) };
    moment_at(time(at) + beside)
}

/// The receipt: that moment, or any day and microsecond.
pub fn receipt(random: &mut Random, moment: Moment) -> [u64; 2] {
    if random.one_in(12) { [handed::day(random) as u64, handed::micro(random)] } else { [moment.day as u64, moment.micro] }
}

pub fn received(call: &Call) -> Moment {
    Moment { day: call.number("receipt_day") as i64, micro: call.number("receipt_micro") }
}

/// The seven words of a vrk_handed: that moment, or anything.
pub fn handed(random: &mut Random, scale: u64, moment: Moment) -> Vec<u64> {
    let mut all = handed::words(random);
    if !random.one_in(4) {
        all[1] = scale;
        all[2] = moment.day as u64;
        all[3] = moment.micro;
        if !random.one_in(6) {
            all[4] = (moment.day as f64 + moment.micro as f64 / 86_400_000_000.0).to_bits();
        }
    }
    all
}

/// The reference of a UTC clock: about a step of its list, or at most so many days from it; seldom in second 60.
pub fn reference(random: &mut Random, step: i64, days: u64) -> Moment {
    let mut moment = match random.below(4) {
        0 => leap::about(random, step),
        1 => Moment { day: random.near(step, 2), micro: random.below(DAY) },
        _ => Moment { day: random.near(step, days), micro: random.below(DAY) },
    };
    if moment.micro >= DAY && !random.one_in(8) {
        moment.micro -= DAY;
    }
    moment
}

/// Of a UTC clock, whose words end with its window: a count whose time is about one step of the list, and a moment at which it is
/// received or which is turned back: about another step, at an end of the window, or in second 60 of some day.
pub fn about<C: Clock>(
    random: &mut Random,
    words: &mut [u64],
    of: impl Fn(&[u64]) -> C,
    list: &leap::Made,
    [step, other]: [i64; 2],
) -> (i128, Moment) {
    let clock = of(words);
    let moved = list.difference(clock.reference_day());
    let place = |k: i128| clock.time(k.clamp(-FAR, FAR)) + moved;
    let wanted = list.place(leap::about(random, step));
    let (mut low, mut high) = (-FAR, FAR);
    while low < high {
        let middle = (low + high + 1) >> 1;
        if place(middle) <= wanted { low = middle } else { high = middle - 1 }
    }
    // the last that is not later, or the next
    let k = low + i128::from(random.one_in(3));
    let (end, away) = (words.len() - if k < 0 { 2 } else { 1 }, k.abs().min(FAR - 1) as u64);
    if random.one_in(if words[end] < away { 2 } else { 8 }) {
        // the window ends with it, or just before it
        words[end] = away.saturating_sub(u64::from(random.one_in(4)));
    }
    let moment = match random.below(8) {
        0 => {
            let (back, ahead) = of(words).ends();
            let end = if random.one_in(2) { back } else { ahead };
            list.moment_at(place(end) + random.pick(&[-1, 0, 1]))
        }
        1 => in_second_60(random, clock.reference_day()),
        _ => leap::about(random, other),
    };
    (k, moment)
}

/// A time in second 60, which its day mostly lacks, at most three days from another day.
fn in_second_60(random: &mut Random, day: i64) -> Moment {
    Moment { day: random.near(day, 3), micro: DAY + random.below(1_000_000) }
}

/// When a count is received: at its time or a microsecond beside it, about the midnight next to it, at the reference's time, which
/// is in the span and in the window, in second 60 of some day; or at that moment, which does not know of the count. Now and then
/// the list of a UTC clock ends with the reference's day.
pub fn received_about(random: &mut Random, clock: &impl Clock, k: i128, list: &mut leap::Made, moment: Moment) -> Moment {
    if !clock.accepted() {
        return moment;
    }
    let (is_utc, day) = (clock.scale() == Scale::Utc, clock.reference_day());
    if is_utc && random.one_in(6) {
        list.end_with(day);
    }
    let moved = if is_utc { list.difference(day) } else { 0 };
    let at = |place: i128| if is_utc { list.moment_at(place) } else { moment_at(place) };
    let place = clock.time(k) + moved;
    let (result, reference) = (at(place), at(clock.time(0) + moved));
    match random.below(10) {
        // a result before the span is 11 where it is received in it
        0..=5 if result.day < clock.scale().first_day() => reference,
        // and one past the list's end 9 where the receipt's second is lacking
        0..=5 if is_utc && list.ends_before(result.day) => in_second_60(random, day - 3),
        0..=2 => at(place + random.pick(&[-1, 0, 0, 1])),
        3 if is_utc => leap::about(random, result.day + i64::from(result.micro >= DAY / 2)),
        4 if is_utc => in_second_60(random, day),
        5 => reference,
        _ => moment,
    }
}

/// A call with these numbers, the list behind them.
pub fn call(function: Function, mut words: Vec<u64>, list: &leap::Made) -> Call {
    words.push(list.last());
    Call { function, words, slices: list.slices().into() }
}
