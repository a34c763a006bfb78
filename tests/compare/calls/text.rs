use super::leap::{made, near_step, with};
use super::{answered, handed, lent, timed, written, Answer, Call, Function, Pair, Random};
use crate::independent::text::{read, spelled, write};
use crate::independent::time::{Moment, Scale};

pub const PAIRS: &[Pair] = &[
    (Function::TextRead, make_read, model_read),
    (Function::TextWrite, make_write, model_write),
];

const FORMS: [u64; 4] = [20, 24, 27, 31];
const SECOND: u64 = 1_000_000;

/// A text that says a time well, most of the time.
fn damaged(random: &mut Random, mut text: Vec<u8>) -> Vec<u8> {
    let at = random.below(text.len() as u64) as usize;
    match random.below(12) {
        0 => text.truncate(at),
        1 => text.extend(b"       "[..1 + random.below(7) as usize].iter()),
        2 => text[at] ^= 1 << random.below(8),
        3 => text[at] = b'0' + random.below(10) as u8,
        4 => text[at] = random.next() as u8,
        _ => {}
    }
    text
}

fn make_read(function: Function, random: &mut Random) -> Call {
    let list = made(random, 8);
    let (day, micro) = if random.one_in(3) { (random.near(13148, 23_500), handed::micro(random)) } else { near_step(random, &list) };
    let moment = Moment { day: day.clamp(-10_300, 36_600), micro: micro % (86_401 * SECOND) };
    let prefix: &[u8] = random.pick(&[b"".as_slice(), b"UTC=", b"TAI=", b"GPS=", b"UTC=", b""]);
    let text = [prefix, &spelled(moment, random.one_in(2))].concat();
    let [days, offsets] = list.slices();
    Call { function, words: vec![list.last()], slices: vec![damaged(random, text), days, offsets] }
}

fn model_read(call: &Call) -> Answer {
    timed(call, Scale::Tai, with(call, |list| read(call.slice("text"), list)))
}

fn make_write(function: Function, random: &mut Random) -> Call {
    let list = made(random, 8);
    let mut words = handed::words(random);
    if !random.one_in(3) {
        let (day, micro) = near_step(random, &list);
        words[0] = u64::from(random.one_in(12));
        words[1] = if random.one_in(4) { words[1] } else { 1 };
        words[2] = day as u64;
        words[3] = if random.one_in(2) { micro } else { micro / SECOND * SECOND };
    }
    let form = if random.one_in(16) { random.pick(&[0, 19, 21, 32, u64::from(u32::MAX)]) } else { random.pick(&FORMS) };
    words.extend([list.last(), form]);
    let [days, offsets] = list.slices();
    Call { function, words, slices: vec![days, offsets, lent(function, random)] }
}

fn model_write(call: &Call) -> Answer {
    let form = call.number("form");
    match handed::of(call) {
        Some(handed) if FORMS.contains(&form) => written(call, with(call, |list| write(handed, form as usize, list))),
        _ => answered(call, &[3]),
    }
}
