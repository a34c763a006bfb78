//! The seven byte layouts.

use super::time::{since_day_0, Handed, Mark, Moment, Record, Scale, DAY};
use super::Number;

pub fn number(bytes: &[u8]) -> u64 {
    bytes.iter().fold(0, |n, &b| n << 8 | u64::from(b))
}

/// The value's last bytes, most significant first.
pub fn field(width: usize, value: u64) -> Vec<u8> {
    value.to_be_bytes()[8 - width..].to_vec()
}

fn fields(parts: &[(usize, u64)]) -> Vec<u8> {
    parts.iter().flat_map(|&(width, value)| field(width, value)).collect()
}

/// A plain time as days, with the microseconds beyond a day carried, in the scale's span or 7.
fn carried(scale: Scale, day: i64, micros: i128) -> Result<Record, Number> {
    let moment = Moment { day: day + (micros / DAY) as i64, micro: (micros % DAY) as u64 };
    if (scale.first_day()..=scale.last_day()).contains(&moment.day) { Ok(Record::plain(scale, moment)) } else { Err(7) }
}

/// The microsecond that a fraction of 16 bits stands for: the nearest, halves upward.
fn fraction_reads(fraction: u64) -> u64 {
    fraction * 15625 / 1024 + u64::from(fraction * 15625 % 1024 >= 512)
}

/// The last fraction whose reading is not later.
fn fraction_of(micro: u64) -> u64 {
    (0..65536u64).rev().find(|&f| fraction_reads(f) <= micro).expect("0 reads 0")
}

/// A handed time of one scale: 4, 7, and 12 for another scale.
fn handed_in(handed: Handed, scale: Scale) -> Result<Moment, Number> {
    handed.finite()?;
    let moment = handed.moment()?;
    if handed.scale() == scale { Ok(moment) } else { Err(12) }
}

pub mod cuc {
    use super::*;

    pub fn split(bytes: &[u8]) -> Result<[u64; 2], Number> {
        if bytes.len() != 6 {
            return Err(1);
        }
        Ok([number(&bytes[..4]), number(&bytes[4..])])
    }

    pub fn image([seconds, fraction]: [u64; 2]) -> Result<Vec<u8>, Number> {
        if fraction > 65535 {
            return Err(3);
        }
        Ok(fields(&[(4, seconds), (2, fraction)]))
    }

    pub fn read(bytes: &[u8]) -> Result<Record, Number> {
        let [seconds, fraction] = split(bytes)?;
        carried(Scale::Gps, -7300, i128::from(seconds * 1_000_000 + fraction_reads(fraction)))
    }

    pub fn write(handed: Handed) -> Result<Vec<u8>, Number> {
        let micros = since_day_0(handed_in(handed, Scale::Gps)?) + 7300 * DAY;
        image([(micros / 1_000_000) as u64, fraction_of((micros % 1_000_000) as u64)])
    }
}

pub mod goce {
    use super::*;

    pub fn read(bytes: &[u8]) -> Result<u64, Number> {
        if bytes.len() == 6 { Ok(number(bytes)) } else { Err(1) }
    }

    pub fn write(count: u64) -> Result<Vec<u8>, Number> {
        if count >> 48 == 0 { Ok(field(6, count)) } else { Err(3) }
    }
}

pub mod obet {
    use super::*;

    pub fn read(bytes: &[u8]) -> Result<u64, Number> {
        if bytes.len() != 8 {
            return Err(1);
        }
        if bytes[0] == 0x66 { Ok(number(&bytes[1..])) } else { Err(2) }
    }

    pub fn write(count: u64) -> Result<Vec<u8>, Number> {
        if count >> 56 == 0 { Ok(fields(&[(1, 0x66), (7, count)])) } else { Err(3) }
    }
}

pub mod proteus {
    use super::*;

    const WEEK: u64 = 604_800;

    /// Week, H3, second of week, fraction.
    pub fn split(bytes: &[u8]) -> Result<[u64; 4], Number> {
        if bytes.len() != 8 {
            return Err(1);
        }
        let head = number(&bytes[..2]);
        if head & 0b1110 != 0 {
            return Err(2);
        }
        let second = number(&bytes[2..6]);
        if second >= WEEK {
            return Err(3);
        }
        Ok([head >> 4, head & 1, second, number(&bytes[6..])])
    }

    pub fn image([week, h3, second, fraction]: [u64; 4]) -> Result<Vec<u8>, Number> {
        if week > 4095 || h3 > 1 || second >= WEEK || fraction > 65535 {
            return Err(3);
        }
        Ok(fields(&[(2, week << 4 | h3), (4, second), (2, fraction)]))
    }

    pub fn read(bytes: &[u8]) -> Result<Record, Number> {
        let [week, h3, second, fraction] = split(bytes)?;
        let micros = (week * WEEK + second) * 1_000_000 + fraction_reads(fraction);
        Ok(Record { mark: Mark::Proteus(h3 == 1), ..carried(Scale::Utc, -7300, i128::from(micros))? })
    }

    pub fn write(handed: Handed) -> Result<Vec<u8>, Number> {
        let moment = handed_in(handed, Scale::Utc)?;
        if i128::from(moment.micro) >= DAY || !(-7300..=21371).contains(&moment.day) {
            return Err(12);
        }
        let micros = (since_day_0(moment) + 7300 * DAY) as u64;
        let seconds = micros / 1_000_000;
        image([seconds / WEEK, handed.mark().h3().into(), seconds % WEEK, fraction_of(micros % 1_000_000)])
    }
}

pub mod cryosat {
    use super::*;

    /// Day, millisecond, microsecond.
    pub fn split(bytes: &[u8]) -> Result<[u64; 3], Number> {
        if bytes.len() != 8 {
            return Err(1);
        }
        judged([number(&bytes[..2]), number(&bytes[2..6]), number(&bytes[6..])])
    }

    pub fn judged(parts: [u64; 3]) -> Result<[u64; 3], Number> {
        if parts[0] > 65535 || parts[1] >= 86_400_000 || parts[2] >= 1000 { Err(3) } else { Ok(parts) }
    }

    pub fn image(parts: [u64; 3]) -> Result<Vec<u8>, Number> {
        let [day, milli, micro] = judged(parts)?;
        Ok(fields(&[(2, day), (4, milli), (2, micro)]))
    }

    pub fn read(bytes: &[u8]) -> Result<Record, Number> {
        let [day, milli, micro] = split(bytes)?;
        carried(Scale::Tai, day as i64, i128::from(milli * 1000 + micro))
    }

    pub fn write(handed: Handed) -> Result<Vec<u8>, Number> {
        let moment = handed_in(handed, Scale::Tai)?;
        if moment.day < 0 {
            return Err(12);
        }
        image([moment.day as u64, moment.micro / 1000, moment.micro % 1000])
    }
}

pub mod siral {
    use super::*;

    /// Day, millisecond, microsecond, extra counter.
    pub fn split(bytes: &[u8]) -> Result<[u64; 4], Number> {
        if bytes.len() != 10 {
            return Err(1);
        }
        let [day, milli, micro] = cryosat::split(&bytes[..8])?;
        Ok([day, milli, micro, number(&bytes[8..])])
    }

    pub fn image([day, milli, micro, extra]: [u64; 4]) -> Result<Vec<u8>, Number> {
        if extra > 65535 {
            return Err(3);
        }
        let mut bytes = cryosat::image([day, milli, micro])?;
        bytes.extend(field(2, extra));
        Ok(bytes)
    }

    pub fn read(bytes: &[u8]) -> Result<Record, Number> {
        let [day, milli, micro, extra] = split(bytes)?;
        // sixteenths of a microsecond, the whole part of the sum
        let sixteenths = i128::from(milli * 1000 + micro) * 16 + i128::from(extra) * 33;
        carried(Scale::Tai, day as i64, sixteenths / 16)
    }

    pub fn write(handed: Handed) -> Result<Vec<u8>, Number> {
        let mut bytes = cryosat::write(handed)?;
        bytes.extend([0, 0]);
        Ok(bytes)
    }
}

pub mod sbt {
    use super::*;

    pub fn read(bytes: &[u8]) -> Result<u64, Number> {
        if bytes.len() == 4 { Ok(number(bytes)) } else { Err(1) }
    }

    pub fn write(tick: u64) -> Vec<u8> {
        field(4, tick)
    }
}
