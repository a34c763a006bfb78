//! Scales, marks, records and what a caller hands in.

use super::{decimal, Number};

#[derive(Clone, Copy, PartialEq, Eq, Debug)]
pub enum Scale {
    Tai,
    Utc,
    Gps,
}

pub const DAY: i128 = 86_400_000_000;

impl Scale {
    /// 0 TAI, 1 UTC, 2 GPS.
    pub fn coded(code: u64) -> Option<Scale> {
        [Scale::Tai, Scale::Utc, Scale::Gps].get(usize::try_from(code).ok()?).copied()
    }

    pub fn code(self) -> u64 {
        self as u64
    }

    pub fn first_day(self) -> i64 {
        if self == Scale::Gps { -7300 } else { -10227 }
    }

    pub fn last_day(self) -> i64 {
        36524
    }

    /// The microseconds that a day of the scale can have.
    pub fn bound(self) -> u64 {
        if self == Scale::Utc { 86_401_000_000 } else { 86_400_000_000 }
    }

    /// Whether a time lies in the scale's span.
    pub fn spans(self, moment: Moment) -> bool {
        self.first_day() <= moment.day && moment.day <= self.last_day() && moment.micro < self.bound()
    }
}

#[derive(Clone, Copy, PartialEq, Eq, Debug)]
pub struct Moment {
    pub day: i64,
    pub micro: u64,
}

/// Where a record came from.
#[derive(Clone, Copy, PartialEq, Eq, Debug)]
pub enum Mark {
    Plain,
    /// From Proteus, with its H3 bit.
    Proteus(bool),
    /// Correlated, with the reference tick, for GOCE the reference count.
    Correlated(u64),
}

impl Mark {
    /// 0 plain, 1 Proteus, 2 correlated, and the source: of Proteus its H3, 0 or 1, and of the others any number.
    pub fn coded(code: u64, source: u64) -> Option<Mark> {
        match (code, source) {
            (0, _) => Some(Mark::Plain),
            (1, 0 | 1) => Some(Mark::Proteus(source == 1)),
            (2, _) => Some(Mark::Correlated(source)),
            _ => None,
        }
    }

    /// The code and the source; a plain mark has source 0.
    pub fn words(self) -> [u64; 2] {
        match self {
            Mark::Plain => [0, 0],
            Mark::Proteus(h3) => [1, h3.into()],
            Mark::Correlated(reference) => [2, reference],
        }
    }

    /// What writing Proteus takes from it.
    pub fn h3(self) -> bool {
        self == Mark::Proteus(true)
    }
}

#[derive(Clone, Copy, Debug)]
pub struct Record {
    pub scale: Scale,
    pub moment: Moment,
    pub mark: Mark,
}

impl Record {
    pub fn plain(scale: Scale, moment: Moment) -> Record {
        Record { scale, moment, mark: Mark::Plain }
    }

    /// What stands beside a refusal's number.
    pub fn empty(scale: Scale) -> Record {
        Record::plain(scale, Moment { day: 0, micro: 0 })
    }
}

#[derive(Clone, Copy, Debug)]
pub enum Handed {
    Record(Record),
    Decimal(Scale, f64),
}

impl Handed {
    pub fn scale(self) -> Scale {
        match self {
            Handed::Record(Record { scale, .. }) | Handed::Decimal(scale, _) => scale,
        }
    }

    pub fn mark(self) -> Mark {
        match self {
            Handed::Record(record) => record.mark,
            Handed::Decimal(..) => Mark::Plain,
        }
    }

    /// 4, and nothing of what follows it.
    pub fn finite(self) -> Result<(), Number> {
        match self {
            Handed::Decimal(_, day) if !day.is_finite() => Err(4),
            _ => Ok(()),
        }
    }

    /// 7, and the time otherwise; of a decimal day that is finite.
    pub fn moment(self) -> Result<Moment, Number> {
        match self {
            Handed::Record(Record { scale, moment, .. }) => if scale.spans(moment) { Ok(moment) } else { Err(7) },
            Handed::Decimal(scale, day) => decimal::read(day, scale).map(|record| record.moment),
        }
    }
}

/// Microseconds since day 0, every day having 86,400 s.
pub fn since_day_0(moment: Moment) -> i128 {
    i128::from(moment.day) * DAY + i128::from(moment.micro)
}

pub fn moment_at(micros: i128) -> Moment {
    Moment { day: micros.div_euclid(DAY) as i64, micro: micros.rem_euclid(DAY) as u64 }
}
