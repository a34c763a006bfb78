//! The fields of the layouts that have several: bytes to fields, and fields into a lent slice.

use super::layouts::{self, cryosat_fields, fraction, second_of_week, seconds, siral_fields};
use super::{answered, lent, written, Answer, Call, Function, Pair, Random};
use crate::independent::layouts::{cryosat, cuc, proteus, siral};
use crate::independent::Number;

pub const PAIRS: &[Pair] = &[
    (Function::CucFieldsRead, layouts::make_cuc_read, model_cuc_read),
    (Function::CucFieldsWrite, make_cuc_write, model_cuc_write),
    (Function::ProteusFieldsRead, layouts::make_proteus_read, model_proteus_read),
    (Function::ProteusFieldsWrite, make_proteus_write, model_proteus_write),
    (Function::CryosatFieldsRead, layouts::make_cryosat_read, model_cryosat_read),
    (Function::CryosatFieldsWrite, make_cryosat_write, model_cryosat_write),
    (Function::SiralFieldsRead, layouts::make_siral_read, model_siral_read),
    (Function::SiralFieldsWrite, make_siral_write, model_siral_write),
];

fn parted<const N: usize>(call: &Call, read: Result<[u64; N], Number>) -> Answer {
    match read {
        Ok(fields) => answered(call, &[&[0], &fields[..]].concat()),
        Err(number) => answered(call, &[number]),
    }
}

fn model_cuc_read(call: &Call) -> Answer {
    parted(call, cuc::split(call.slice("bytes")))
}

fn model_proteus_read(call: &Call) -> Answer {
    parted(call, proteus::split(call.slice("bytes")))
}

fn model_cryosat_read(call: &Call) -> Answer {
    parted(call, cryosat::split(call.slice("bytes")))
}

fn model_siral_read(call: &Call) -> Answer {
    parted(call, siral::split(call.slice("bytes")))
}

fn of_fields(function: Function, random: &mut Random, mut words: Vec<u64>) -> Call {
    if random.one_in(6) {
        // too wide for its field, or over its limit
        let at = random.below(words.len() as u64) as usize;
        words[at] = random.next() >> (32 + random.below(32));
    }
    let slices = vec![lent(function, random)];
    Call { function, words, slices }
}

fn make_cuc_write(function: Function, random: &mut Random) -> Call {
    let words = vec![seconds(random), fraction(random)];
    of_fields(function, random, words)
}

fn make_proteus_write(function: Function, random: &mut Random) -> Call {
    let words = vec![random.below(4096), random.below(2), second_of_week(random), fraction(random)];
    of_fields(function, random, words)
}

fn make_cryosat_write(function: Function, random: &mut Random) -> Call {
    let words = cryosat_fields(random);
    of_fields(function, random, words)
}

fn make_siral_write(function: Function, random: &mut Random) -> Call {
    let words = siral_fields(random);
    of_fields(function, random, words)
}

fn parts<const N: usize>(call: &Call) -> [u64; N] {
    call.words[..].try_into().expect("so many fields")
}

fn model_cuc_write(call: &Call) -> Answer {
    written(call, cuc::image(parts(call)))
}

fn model_proteus_write(call: &Call) -> Answer {
    written(call, proteus::image(parts(call)))
}

fn model_cryosat_write(call: &Call) -> Answer {
    written(call, cryosat::image(parts(call)))
}

fn model_siral_write(call: &Call) -> Answer {
    written(call, siral::image(parts(call)))
}
