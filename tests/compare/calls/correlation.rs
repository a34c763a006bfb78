use super::{answered, clock, counted, handed, leap, timed, Answer, Call, Function, Pair, Random};
use crate::independent::correlation::Correlation;
use crate::independent::time::{since_day_0, Moment, Scale};

pub const PAIRS: &[Pair] = &[
    (Function::SbtDate, make_date, model_date),
    (Function::SbtTick, make_tick, model_tick),
];

/// The seven words of a vrk_sbt_correlation: tick, scale, day, micro, period, back, ahead.
fn words(random: &mut Random) -> Vec<u64> {
    let tick = if random.one_in(4) { random.pick(&[0, 1, 0xffff_ffff, 0xffff_fffe]) } else { random.next() >> 32 };
    let scale = match random.below(60) {
        0 => random.pick(&[3, 7, u64::from(u32::MAX)]),
        1..=30 => Scale::Utc.code(),
        _ => random.pick(&[Scale::Tai, Scale::Gps]).code(),
    };
    // a window reaches 97 days at most: times outside the span come from references near its ends
    let day = match random.below(8) {
        0 => handed::day(random),
        1 | 2 => 36524 - random.below(60) as i64,
        3 => -7300 + random.below(60) as i64,
        4 => -10227 + random.below(60) as i64,
        _ => random.below(43000) as i64 - 7000,
    };
    let micro = if random.one_in(12) { handed::micro(random) } else { random.below(86_400_000_000) };
    let period = match random.below(16) {
        0 => random.pick(&[3_905_999_999, 3_906_500_001, 0, u64::MAX]),
        1 => 3_906_000_000,
        2 => 3_906_500_000,
        3 => 3_906_250_000,
        _ => 3_906_000_000 + random.below(500_001),
    };
    vec![tick, scale, day as u64, micro, period, clock::reach(random, 1 << 31), clock::reach(random, (1 << 31) - 1)]
}

fn of(words: &[u64]) -> Option<Correlation> {
    Some(Correlation {
        tick: words[0] as u32,
        scale: Scale::coded(words[1])?,
        reference: Moment { day: words[2] as i64, micro: words[3] },
        period: words[4],
        back: words[5],
        ahead: words[6],
    })
}

fn moment(random: &mut Random, words: &[u64]) -> Moment {
    let reference = since_day_0(Moment { day: (words[2] as i64).clamp(-100_000, 100_000), micro: words[3].min(1 << 40) });
    let period = i128::from(words[4].min(1 << 40));
    clock::moment(random, &words[5..], |k| reference + (k * period).div_euclid(1_000_000))
}

/// A correlation with its list, a count from the reference, and a moment at which it is received or which is turned back.
fn made(random: &mut Random) -> (Vec<u64>, leap::Made, i128, Moment) {
    let mut correlation = words(random);
    let list = leap::made(random, 8);
    if correlation[1] != Scale::Utc.code() || random.one_in(6) {
        let k = clock::count(random, &correlation[5..]);
        let moment = moment(random, &correlation);
        return (correlation, list, k, moment);
    }
    let step = if random.one_in(12) { Scale::Utc.first_day() } else { leap::any_step(random, &list) };
    let reference = clock::reference(random, step, 90);
    correlation[2] = reference.day as u64;
    correlation[3] = reference.micro;
    let (k, moment) = clock::about(random, &mut correlation, |words| of(words).expect("it is UTC"), &list, [step, step]);
    (correlation, list, k, moment)
}

fn make_date(function: Function, random: &mut Random) -> Call {
    let (correlation, mut list, k, moment) = made(random);
    let at = i128::from(correlation[0]) + k;
    let tick = if random.one_in(12) { random.next() as u32 } else { at as u32 };
    let moment = of(&correlation).map_or(moment, |clock| clock::received_about(random, &clock, k, &mut list, moment));
    let mut all = vec![u64::from(tick)];
    all.extend(correlation);
    all.extend(clock::receipt(random, moment));
    clock::call(function, all, &list)
}

fn model_date(call: &Call) -> Answer {
    // an unknown scale is a correlation that is not accepted, and then no list is used
    let Some(correlation) = of(call.numbers("correlation")) else { return answered(call, &[6]) };
    let tick = call.number("tick") as u32;
    timed(call, correlation.scale, leap::with(call, |list| correlation.date(tick, clock::received(call), list)))
}

fn make_tick(function: Function, random: &mut Random) -> Call {
    let (correlation, list, _, moment) = made(random);
    let mut all = clock::handed(random, correlation[1], moment);
    all.extend(correlation);
    clock::call(function, all, &list)
}

fn model_tick(call: &Call) -> Answer {
    let tick = match (handed::of(call), of(call.numbers("correlation"))) {
        (None, _) => Err(3),
        (Some(handed), None) => handed.finite().and(Err(6)),
        (Some(handed), Some(correlation)) => leap::with(call, |list| correlation.tick_of(handed, list)),
    };
    counted(call, tick.map(u64::from))
}
