//! Decimal days, as fractions of whole numbers.

use super::time::{moment_at, since_day_0, Handed, Record, Scale, DAY};
use super::Number;
use std::cmp::Ordering;

/// A double as sign, significand and power of two: value = significand * 2^power, with the sign.
fn exact(x: f64) -> (bool, u64, i32) {
    let bits = x.to_bits();
    let negative = bits >> 63 == 1;
    let exponent = (bits >> 52 & 0x7ff) as i32;
    let fraction = bits & ((1 << 52) - 1);
    if exponent == 0 { (negative, fraction, -1074) } else { (negative, fraction | 1 << 52, exponent - 1075) }
}

/// The exact value of a finite double against a whole number of small size.
fn compare(x: f64, whole: i128) -> Ordering {
    let (negative, significand, power) = exact(x);
    let signed = if negative { -i128::from(significand) } else { i128::from(significand) };
    if signed == 0 {
        return 0.cmp(&whole);
    }
    // 2^53 * 2^power is far beyond any whole number asked about, or far below 1.
    if power > 40 {
        return if negative { Ordering::Less } else { Ordering::Greater };
    }
    if power < -70 {
        let side = if negative { Ordering::Less } else { Ordering::Greater };
        return if whole == 0 { side } else { 0.cmp(&whole) };
    }
    if power >= 0 { (signed << power).cmp(&whole) } else { signed.cmp(&(whole << -power)) }
}

/// 4, 7, or the microsecond nearest the exact value, a tie going to the later.
pub fn read(x: f64, scale: Scale) -> Result<Record, Number> {
    if !x.is_finite() {
        return Err(4);
    }
    if compare(x, i128::from(scale.first_day())) == Ordering::Less || compare(x, 36525) != Ordering::Less {
        return Err(7);
    }
    let (negative, significand, power) = exact(x);
    let signed = if negative { -i128::from(significand) } else { i128::from(significand) };
    // |x| < 2^16, so the power is below -36 for a full significand; below -90 the value is no half microsecond.
    if power < -90 {
        return Ok(Record::plain(scale, moment_at(0)));
    }
    let micros = if power >= 0 {
        (signed << power) * DAY
    } else {
        // floor(value + 1/2) = floor((2 n + d) / 2 d)
        (2 * signed * DAY + (1 << -power)).div_euclid(2 << -power)
    };
    Ok(Record::plain(scale, moment_at(micros)))
}

/// The double nearest micros / 86,400,000,000, a tie going to the even significand.
pub fn nearest(micros: i128) -> f64 {
    if micros == 0 {
        return 0.0;
    }
    let size = micros.unsigned_abs();
    let divisor = DAY as u128;
    // the power at which the quotient has 53 digits
    let mut power = 0;
    while (size << (power + 1)) / divisor < 1 << 53 {
        power += 1;
    }
    let (quotient, left) = ((size << power) / divisor, (size << power) % divisor);
    let up = match (2 * left).cmp(&divisor) {
        Ordering::Less => 0,
        Ordering::Equal => quotient & 1,
        Ordering::Greater => 1,
    };
    // Both factors and the product are exact: a whole number to 2^53, and a power of two.
    let double = (quotient + up) as f64 * f64::from_bits(((1023 - power) as u64) << 52);
    if micros < 0 { -double } else { double }
}

/// 4, 7, 12 for second 60, or the double.
pub fn write(handed: Handed) -> Result<f64, Number> {
    handed.finite()?;
    let moment = handed.moment()?;
    if i128::from(moment.micro) >= DAY {
        return Err(12);
    }
    Ok(nearest(since_day_0(moment)))
}
