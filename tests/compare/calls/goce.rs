use super::{clock, counted, handed, leap, timed, Answer, Call, Function, Pair, Random};
use crate::independent::clock::Clock;
use crate::independent::goce::Correlation;
use crate::independent::time::{since_day_0, Moment, Scale};

pub const PAIRS: &[Pair] = &[
    (Function::GoceDate, make_date, model_date),
    (Function::GoceCount, make_count, model_count),
];

const WRAP: u64 = 1 << 48;
/// A day in counts, and where the span begins and ends.
const DAY: i64 = 5_662_310_400;
const BEGIN: i64 = -10227 * DAY;
const END: i64 = 206_815_887_360_000;

/// The six words of a vrk_goce_correlation: obt0, utc0, offset, gradient, back, ahead.
fn words(random: &mut Random) -> Vec<u64> {
    let obt0 = match random.below(16) {
        0 => random.pick(&[0, 1, 2]),
        1 => WRAP - 1 - random.below(3),
        2 => WRAP / 2 - random.below(2),
        3 if random.one_in(4) => random.pick(&[WRAP, WRAP + 1, u64::MAX]),
        _ => random.below(WRAP),
    };
    let offset = match random.below(12) {
        0 => DAY,
        1 => -DAY,
        2 => random.near(0, 2),
        3 if random.one_in(4) => random.pick(&[DAY + 1, -DAY - 1, i64::MIN, i64::MAX]),
        _ => random.near(0, DAY as u64),
    };
    // a window reaches 24,880 days either way: times outside the span come from most references
    let utc0 = match random.below(12) {
        0 => random.below(3),
        1 => random.near(END, 2).wrapping_sub(offset) as u64,
        2 => (END.wrapping_sub(offset) as u64).wrapping_sub(random.below(DAY as u64)),
        3 => random.below(DAY as u64),
        4 if random.one_in(4) => random.pick(&[WRAP - 1, WRAP, u64::MAX]),
        _ => random.below(END as u64),
    };
    let gradient = match random.below(16) {
        0 => random.pick(&[998_999_999, 1_001_000_001, 0, u64::MAX]),
        1 | 2 => 999_000_000,
        3 | 4 => 1_001_000_000,
        5 | 6 => 1_000_000_000,
        _ => 999_000_000 + random.below(2_000_001),
    };
    let reference = i128::from(utc0) + i128::from(offset);
    let back = reach(random, reference - i128::from(BEGIN), gradient, 1 << 47);
    let ahead = reach(random, i128::from(END) - reference, gradient, (1 << 47) - 1);
    vec![obt0, utc0, offset as u64, gradient, back, ahead]
}

/// As of any clock, or to the span's end, which is so many counts away, or a count beyond it.
fn reach(random: &mut Random, away: i128, gradient: u64, most: u64) -> u64 {
    let whole = (away.abs() * 1_000_000_000 / i128::from(gradient.max(1))) as u64;
    if random.one_in(6) { most.min(whole + random.below(2)) } else { clock::reach(random, most) }
}

fn of(words: &[u64]) -> Correlation {
    Correlation {
        obt0: words[0],
        utc0: words[1],
        offset: words[2] as i64,
        gradient: words[3],
        back: words[4],
        ahead: words[5],
    }
}

fn moment(random: &mut Random, words: &[u64]) -> Moment {
    clock::moment(random, &words[4..], |k| of(words).time(k))
}

/// A correlation with its list, a count from the reference, and a moment at which it is received or which is turned back.
fn made(random: &mut Random) -> (Vec<u64>, leap::Made, i128, Moment) {
    let mut correlation = words(random);
    let mut list = leap::made(random, 8);
    if list.ends_before(0) && !random.one_in(6) {
        // all references lie after 1999
        list = leap::made(random, 8);
    }
    if random.one_in(6) {
        let k = clock::count(random, &correlation[4..]);
        let moment = moment(random, &correlation);
        return (correlation, list, k, moment);
    }
    let day = if random.one_in(3) { list.last() as i64 } else { leap::any_step(random, &list) };
    let reference = clock::reference(random, day.clamp(0, 36524), 3000);
    // a count in its microsecond, less the offset
    let counts = since_day_0(reference) * 65_536 / 1_000_000 - i128::from(correlation[2] as i64);
    if let Ok(utc0) = u64::try_from(counts) {
        correlation[1] = utc0;
    }
    // half a wrap is 68 years: any step may be in the window, and times before 1972
    let [early, step, other] = [random.below(14_000) as i64, leap::any_step(random, &list), leap::any_step(random, &list)];
    let step = if random.one_in(8) { Scale::Utc.first_day() - early } else { step };
    let (k, moment) = clock::about(random, &mut correlation, of, &list, [step, other]);
    (correlation, list, k, moment)
}

fn make_date(function: Function, random: &mut Random) -> Call {
    let (correlation, mut list, k, moment) = made(random);
    let at = (i128::from(correlation[0]) + k).rem_euclid(i128::from(WRAP)) as u64;
    let obt = match random.below(24) {
        0 => random.pick(&[0, WRAP - 1]),
        1 => random.pick(&[WRAP, u64::MAX]),
        // the same count but for a bit that the counter lacks
        2 => at + (WRAP << random.below(16)),
        3 | 4 => random.below(WRAP),
        _ => at,
    };
    let moment = clock::received_about(random, &of(&correlation), k, &mut list, moment);
    let mut all = vec![obt];
    all.extend(correlation);
    all.extend(clock::receipt(random, moment));
    clock::call(function, all, &list)
}

fn model_date(call: &Call) -> Answer {
    let (correlation, obt) = (of(call.numbers("correlation")), call.number("obt"));
    timed(call, Scale::Utc, leap::with(call, |list| correlation.date(obt, clock::received(call), list)))
}

fn make_count(function: Function, random: &mut Random) -> Call {
    let (correlation, list, _, moment) = made(random);
    let mut all = clock::handed(random, Scale::Utc.code(), moment);
    all.extend(correlation);
    clock::call(function, all, &list)
}

fn model_count(call: &Call) -> Answer {
    let correlation = of(call.numbers("correlation"));
    let count = handed::of(call).ok_or(3).and_then(|handed| leap::with(call, |list| correlation.count_of(handed, list)));
    counted(call, count)
}
