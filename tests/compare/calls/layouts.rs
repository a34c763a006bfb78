use super::{counted, handed, lent, timed, written, Answer, Call, Function, Pair, Random};
use crate::independent::layouts::{cryosat, cuc, field, goce, obet, proteus, sbt, siral};
use crate::independent::time::Scale;

pub const PAIRS: &[Pair] = &[
    (Function::CucRead, make_cuc_read, model_cuc_read),
    (Function::CucWrite, make_cuc_write, model_cuc_write),
    (Function::GoceRead, make_goce_read, model_goce_read),
    (Function::GoceWrite, make_goce_write, model_goce_write),
    (Function::ObetRead, make_obet_read, model_obet_read),
    (Function::ObetWrite, make_obet_write, model_obet_write),
    (Function::ProteusRead, make_proteus_read, model_proteus_read),
    (Function::ProteusWrite, make_proteus_write, model_proteus_write),
    (Function::CryosatRead, make_cryosat_read, model_cryosat_read),
    (Function::CryosatWrite, make_cryosat_write, model_cryosat_write),
    (Function::SiralRead, make_siral_read, model_siral_read),
    (Function::SiralWrite, make_siral_write, model_siral_write),
    (Function::SbtRead, make_sbt_read, model_sbt_read),
    (Function::SbtWrite, make_sbt_write, model_sbt_write),
];

// ---- bytes in

/// Bytes of a layout that reads well most of the time, with its length, marker or fields damaged some times.
fn bytes(random: &mut Random, parts: &[(usize, u64)]) -> Vec<u8> {
    let mut all: Vec<u8> = parts.iter().flat_map(|&(width, value)| field(width, value)).collect();
    match random.below(12) {
        0 => all.truncate(random.below(all.len() as u64 + 1) as usize),
        1 => all.extend((0..random.below(40)).map(|_| random.next() as u8)),
        2 => all = (0..random.below(41)).map(|_| random.next() as u8).collect(),
        3 => {
            let at = random.below(all.len() as u64) as usize;
            all[at] ^= 1 << random.below(8);
        }
        _ => {}
    }
    all
}

pub fn seconds(random: &mut Random) -> u64 {
    match random.below(6) {
        0 => random.near(3_786_479_999, 3) as u64,
        1 => random.pick(&[0, 1, 0xffff_ffff]),
        2 => random.next() >> 32,
        _ => random.below(3_786_480_000),
    }
}

/// 512 and 1536 stand half way between two microseconds.
pub fn fraction(random: &mut Random) -> u64 {
    if random.one_in(4) { random.pick(&[0, 1, 2, 511, 512, 513, 1536, 65534, 65535]) } else { random.below(65536) }
}

fn cuc_parts(random: &mut Random) -> Vec<(usize, u64)> {
    vec![(4, seconds(random)), (2, fraction(random))]
}

fn obet_parts(random: &mut Random) -> Vec<(usize, u64)> {
    let marker = if random.one_in(6) { random.below(256) } else { 0x66 };
    vec![(1, marker), (7, random.next() >> 8)]
}

fn proteus_parts(random: &mut Random) -> Vec<(usize, u64)> {
    let zeros = if random.one_in(6) { random.below(8) << 1 } else { 0 };
    vec![(2, random.below(4096) << 4 | zeros | random.below(2)), (4, second_of_week(random)), (2, fraction(random))]
}

pub fn second_of_week(random: &mut Random) -> u64 {
    match random.below(6) {
        0 => random.near(604_799, 2) as u64,
        1 => random.next() >> 32,
        _ => random.below(604_800),
    }
}

pub fn cryosat_fields(random: &mut Random) -> Vec<u64> {
    let day = match random.below(5) {
        0 => random.near(36524, 2) as u64,
        1 => random.below(65536),
        _ => random.below(36525),
    };
    let milli = match random.below(8) {
        0 => random.near(86_399_999, 2) as u64,
        1 => random.next() >> 32,
        _ => random.below(86_400_000),
    };
    let micro = match random.below(8) {
        0 => random.near(999, 2) as u64,
        1 => random.below(65536),
        _ => random.below(1000),
    };
    vec![day, milli, micro]
}

pub fn siral_fields(random: &mut Random) -> Vec<u64> {
    let mut all = cryosat_fields(random);
    if random.one_in(8) {
        // a carry that passes midnight, on the last day too
        all[0] = random.pick(&[0, 100, 36523, 36524]);
        all[1] = 86_399_999 - random.below(140);
    }
    all.push(if random.one_in(4) { random.pick(&[0, 1, 16, 65535]) } else { random.below(65536) });
    all
}

fn with_widths(values: Vec<u64>, widths: &[usize]) -> Vec<(usize, u64)> {
    widths.iter().copied().zip(values).collect()
}

macro_rules! readers {
    ($($make:ident $parts:expr;)*) => {
        $(pub fn $make(function: Function, random: &mut Random) -> Call {
            let parts: Vec<(usize, u64)> = $parts(random);
            Call { function, words: Vec::new(), slices: vec![bytes(random, &parts)] }
        })*
    };
}

readers! {
    make_cuc_read cuc_parts;
    make_goce_read |random: &mut Random| vec![(6, random.next() >> 16)];
    make_obet_read obet_parts;
    make_proteus_read proteus_parts;
    make_cryosat_read |random: &mut Random| with_widths(cryosat_fields(random), &[2, 4, 2]);
    make_siral_read |random: &mut Random| with_widths(siral_fields(random), &[2, 4, 2, 2]);
    make_sbt_read |random: &mut Random| vec![(4, random.next() >> 32)];
}

// ---- what the readers give

fn model_cuc_read(call: &Call) -> Answer {
    timed(call, Scale::Gps, cuc::read(call.slice("bytes")))
}

fn model_cryosat_read(call: &Call) -> Answer {
    timed(call, Scale::Tai, cryosat::read(call.slice("bytes")))
}

fn model_siral_read(call: &Call) -> Answer {
    timed(call, Scale::Tai, siral::read(call.slice("bytes")))
}

fn model_proteus_read(call: &Call) -> Answer {
    timed(call, Scale::Utc, proteus::read(call.slice("bytes")))
}

fn model_goce_read(call: &Call) -> Answer {
    counted(call, goce::read(call.slice("bytes")))
}

fn model_obet_read(call: &Call) -> Answer {
    counted(call, obet::read(call.slice("bytes")))
}

fn model_sbt_read(call: &Call) -> Answer {
    counted(call, sbt::read(call.slice("bytes")))
}

// ---- writing into a lent slice

/// A handed time of one scale most of the time.
fn of_scale(function: Function, random: &mut Random, scale: Scale) -> Call {
    let mut words = handed::words(random);
    if !random.one_in(6) && words[1] < 3 {
        words[1] = scale.code();
    }
    if random.one_in(8) {
        // where Proteus' weeks end
        words[2] = random.near(21371, 1) as u64;
    }
    let slices = vec![lent(function, random)];
    Call { function, words, slices }
}

/// The same, often where a fraction's reading ends: which one is written depends on how it is rounded.
fn of_fraction(function: Function, random: &mut Random, scale: Scale) -> Call {
    let mut call = of_scale(function, random, scale);
    if random.one_in(4) {
        let micro = random.pick(&[14, 15, 30, 31, 7_811, 7_812, 7_813, 999_983, 999_984, 999_985]);
        call.words[3] = random.below(86_400) * 1_000_000 + micro;
    }
    call
}

fn make_cuc_write(function: Function, random: &mut Random) -> Call {
    of_fraction(function, random, Scale::Gps)
}

fn make_cryosat_write(function: Function, random: &mut Random) -> Call {
    of_scale(function, random, Scale::Tai)
}

fn make_siral_write(function: Function, random: &mut Random) -> Call {
    of_scale(function, random, Scale::Tai)
}

fn make_proteus_write(function: Function, random: &mut Random) -> Call {
    let mut call = of_fraction(function, random, Scale::Utc);
    let h3 = if random.one_in(20) { 2 + random.below(9) } else { random.below(2) };
    if random.aside().one_in(2) {
        call.words[5..].copy_from_slice(&[1, h3]);
    }
    call
}

fn model_cuc_write(call: &Call) -> Answer {
    written(call, handed::of(call).ok_or(3).and_then(cuc::write))
}

fn model_cryosat_write(call: &Call) -> Answer {
    written(call, handed::of(call).ok_or(3).and_then(cryosat::write))
}

fn model_siral_write(call: &Call) -> Answer {
    written(call, handed::of(call).ok_or(3).and_then(siral::write))
}

fn model_proteus_write(call: &Call) -> Answer {
    written(call, handed::of(call).ok_or(3).and_then(proteus::write))
}

fn count(function: Function, random: &mut Random, bits: u32) -> Call {
    let words = vec![match random.below(6) {
        0 => random.near(1 << bits, 2) as u64,
        1 => random.next(),
        _ => random.next() >> (64 - bits),
    }];
    let slices = vec![lent(function, random)];
    Call { function, words, slices }
}

fn make_goce_write(function: Function, random: &mut Random) -> Call {
    count(function, random, 48)
}

fn make_obet_write(function: Function, random: &mut Random) -> Call {
    count(function, random, 56)
}

fn make_sbt_write(function: Function, random: &mut Random) -> Call {
    let words = vec![random.next() >> 32];
    let slices = vec![lent(function, random)];
    Call { function, words, slices }
}

fn model_goce_write(call: &Call) -> Answer {
    written(call, goce::write(call.number("count")))
}

fn model_obet_write(call: &Call) -> Answer {
    written(call, obet::write(call.number("count")))
}

fn model_sbt_write(call: &Call) -> Answer {
    written(call, Ok(sbt::write(call.number("tick"))))
}
