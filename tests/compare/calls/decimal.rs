use super::{answered, handed, timed, Answer, Call, Function, Pair, Random};
use crate::independent::decimal;
use crate::independent::time::Scale;

pub const PAIRS: &[Pair] = &[
    (Function::DecimalRead, make_read, model_read),
    (Function::DecimalWrite, make_write, model_write),
];

fn make_read(function: Function, random: &mut Random) -> Call {
    Call::of(function, vec![handed::decimal(random).to_bits(), handed::scale_code(random)])
}

fn model_read(call: &Call) -> Answer {
    let Some(scale) = Scale::coded(call.number("scale")) else { return answered(call, &[3]) };
    timed(call, scale, decimal::read(f64::from_bits(call.number("day")), scale))
}

fn make_write(function: Function, random: &mut Random) -> Call {
    Call::of(function, handed::words(random))
}

fn model_write(call: &Call) -> Answer {
    match handed::of(call).ok_or(3).and_then(decimal::write) {
        Ok(day) => answered(call, &[0, day.to_bits()]),
        Err(number) => answered(call, &[number, 0f64.to_bits()]),
    }
}
