//! Scales, times of each scale, and what is handed in.

use crate::error::{answered, Error};
use crate::leap::{change, LeapList};
use crate::mark::Mark;
use crate::sys;
use std::cmp::Ordering;
use std::hash::{Hash, Hasher};

/// A scale, where it is known only when the program runs.
#[derive(Clone, Copy, PartialEq, Eq, Hash, Debug)]
pub enum Scale {
    /// International Atomic Time.
    Tai,
    /// Coordinated Universal Time, with its leap seconds.
    Utc,
    /// GPS time, TAI less 19 s.
    Gps,
}

impl Scale {
    pub(crate) fn code(self) -> u32 {
        match self {
            Scale::Tai => 0,
            Scale::Utc => 1,
            Scale::Gps => 2,
        }
    }
}

mod sealed {
    pub trait Sealed {}
}

/// The times of one scale: [`Tai`], [`Utc`] and [`Gps`], and no other type.
pub trait Scaled: sealed::Sealed + Copy + Into<Handed> {
    /// The scale.
    const SCALE: Scale;
    /// The time at a day and a microsecond of that day, plain.
    fn at(day: i64, micro: u64) -> Self;
    /// The same time with this mark.
    fn with_mark(self, mark: Mark) -> Self;
    /// Days from 1 January 2000.
    fn day(self) -> i64;
    /// Microsecond of the day.
    fn micro(self) -> u64;
    /// Where the time came from.
    fn mark(self) -> Mark;
}

macro_rules! scale {
    ($name:ident, $first:expr, $bound:expr, $what:expr) => {
        #[doc = $what]
        ///
        /// The order is that of time, and the mark is no part of it. A value outside the scale's span can be built; every function
        /// refuses it with 7.
        #[derive(Clone, Copy, Debug)]
        pub struct $name {
            /// Days from 1 January 2000.
            pub day: i64,
            /// Microsecond of that day.
            pub micro: u64,
            /// Where the time came from. Equality, order and hash do not look at it.
            pub mark: Mark,
        }

        impl $name {
            /// The first day of the scale's span, counted from 1 January 2000.
            pub const FIRST_DAY: i64 = $first;
            /// The last day of the scale's span, 31 December 2099.
            pub const LAST_DAY: i64 = 36524;
            /// A microsecond of day is below this.
            pub const BOUND: u64 = $bound;

            /// The time at a day and a microsecond of that day, plain. It is judged by the function that is given it.
            pub const fn new(day: i64, micro: u64) -> Self {
                $name { day, micro, mark: Mark::Plain }
            }

            /// The same time with this mark.
            pub const fn with_mark(self, mark: Mark) -> Self {
                $name { mark, ..self }
            }

            /// The microsecond nearest a decimal day, ties to the later. Refused: 4; 7.
            pub fn from_decimal(day: f64) -> Result<Self, Error> {
                at(sys::decimal_read(day, Scale::$name.code()))
            }

            /// [`Handed::to_decimal`] of this time.
            pub fn to_decimal(self) -> Result<f64, Error> {
                Handed::from(self).to_decimal()
            }
        }

        impl PartialEq for $name {
            fn eq(&self, other: &Self) -> bool {
                self.cmp(other).is_eq()
            }
        }

        impl Eq for $name {}

        impl PartialOrd for $name {
            fn partial_cmp(&self, other: &Self) -> Option<Ordering> {
                Some(self.cmp(other))
            }
        }

        impl Ord for $name {
            fn cmp(&self, other: &Self) -> Ordering {
                (self.day, self.micro).cmp(&(other.day, other.micro))
            }
        }

        impl Hash for $name {
            fn hash<H: Hasher>(&self, state: &mut H) {
                (self.day, self.micro).hash(state);
            }
        }

        impl sealed::Sealed for $name {}

        impl Scaled for $name {
            const SCALE: Scale = Scale::$name;
            fn at(day: i64, micro: u64) -> Self {
                $name::new(day, micro)
            }
            fn with_mark(self, mark: Mark) -> Self {
                $name { mark, ..self }
            }
            fn day(self) -> i64 {
                self.day
            }
            fn micro(self) -> u64 {
                self.micro
            }
            fn mark(self) -> Mark {
                self.mark
            }
        }

        impl From<$name> for Time {
            fn from(time: $name) -> Time {
                Time::$name(time)
            }
        }

        impl From<$name> for Handed {
            fn from(time: $name) -> Handed {
                Handed::Record(Time::$name(time))
            }
        }
    };
}

scale!(Tai, -10227, 86_400_000_000, "A TAI time, from day -10227 (1 January 1972) to 36524 (31 December 2099).");
scale!(Utc, -10227, 86_401_000_000, "A UTC time; microseconds from 86,400,000,000 on are second 60.");
scale!(Gps, -7300, 86_400_000_000, "A GPS time, from day -7300 (6 January 1980) to 36524.");

// TAI and GPS change into each other without a list: none is looked at.
const NO_LIST: LeapList<'static> = LeapList { days: &[], offsets: &[], last: 0 };

impl Tai {
    /// The same instant in GPS. Refused: 7; 11.
    pub fn to_gps(self) -> Result<Gps, Error> {
        change(self, &NO_LIST)
    }

    /// The same instant in UTC. Refused: 5; 7; 9; 11.
    pub fn to_utc(self, list: &LeapList<'_>) -> Result<Utc, Error> {
        change(self, list)
    }
}

impl Gps {
    /// The same instant in TAI. Refused: 7; 11.
    pub fn to_tai(self) -> Result<Tai, Error> {
        change(self, &NO_LIST)
    }

    /// The same instant in UTC. Refused: 5; 7; 9; 11.
    pub fn to_utc(self, list: &LeapList<'_>) -> Result<Utc, Error> {
        change(self, list)
    }
}

impl Utc {
    /// The same instant in TAI. Refused: 5; 7; 9; 10; 11.
    pub fn to_tai(self, list: &LeapList<'_>) -> Result<Tai, Error> {
        change(self, list)
    }

    /// The same instant in GPS. Refused: 5; 7; 9; 10; 11.
    pub fn to_gps(self, list: &LeapList<'_>) -> Result<Gps, Error> {
        change(self, list)
    }
}

/// A time of a scale that is known only when the program runs, as of a text.
#[derive(Clone, Copy, PartialEq, Eq, Hash, Debug)]
#[allow(missing_docs)]
pub enum Time {
    Tai(Tai),
    Utc(Utc),
    Gps(Gps),
}

impl Time {
    /// The scale of the time.
    pub fn scale(self) -> Scale {
        match self {
            Time::Tai(_) => Scale::Tai,
            Time::Utc(_) => Scale::Utc,
            Time::Gps(_) => Scale::Gps,
        }
    }

    /// Days from 1 January 2000.
    pub fn day(self) -> i64 {
        match self {
            Time::Tai(Tai { day, .. }) | Time::Utc(Utc { day, .. }) | Time::Gps(Gps { day, .. }) => day,
        }
    }

    /// Microsecond of the day.
    pub fn micro(self) -> u64 {
        match self {
            Time::Tai(Tai { micro, .. }) | Time::Utc(Utc { micro, .. }) | Time::Gps(Gps { micro, .. }) => micro,
        }
    }

    /// Where the time came from.
    pub fn mark(self) -> Mark {
        match self {
            Time::Tai(Tai { mark, .. }) | Time::Utc(Utc { mark, .. }) | Time::Gps(Gps { mark, .. }) => mark,
        }
    }
}

/// What a caller hands in: either a record or a decimal day. Every writer takes it, and every time turns into it.
///
/// ```
/// use vrikshonem::{cryosat, Handed, Scale, Tai};
/// let mut bytes = [0; cryosat::LENGTH];
/// assert_eq!(cryosat::write(Handed::Decimal(1.5, Scale::Tai), &mut bytes), Ok(8));
/// assert_eq!(cryosat::read(&bytes), Ok(Tai::new(1, 43_200_000_000)));
/// ```
#[derive(Clone, Copy, PartialEq, Debug)]
pub enum Handed {
    /// A record: a scale, a day, a microsecond of that day, and its mark.
    Record(Time),
    /// A decimal day from 1 January 2000, and its scale; its mark is plain. Refused with 4 where it is infinite or not a number.
    Decimal(f64, Scale),
}

impl From<Time> for Handed {
    fn from(time: Time) -> Handed {
        Handed::Record(time)
    }
}

impl Handed {
    /// The double nearest the time in days; it reads back as the same time. Refused: 4; 7; 12 second 60.
    pub fn to_decimal(self) -> Result<f64, Error> {
        let written = sys::decimal_write(self.given());
        answered(written.refusal, written.day)
    }

    pub(crate) fn given(self) -> sys::VrkHanded {
        match self {
            Handed::Record(time) => {
                let (scale, (mark, source)) = (time.scale().code(), time.mark().given());
                sys::VrkHanded { kind: 0, scale, day: time.day(), micro: time.micro(), decimal: 0.0, mark, source }
            }
            Handed::Decimal(decimal, scale) => {
                sys::VrkHanded { kind: 1, scale: scale.code(), day: 0, micro: 0, decimal, mark: 0, source: 0 }
            }
        }
    }
}

/// The answer of a function whose scale is known.
pub(crate) fn at<T: Scaled>(time: sys::VrkTime) -> Result<T, Error> {
    debug_assert_eq!(time.scale, T::SCALE.code());
    answered(time.refusal, T::at(time.day, time.micro).with_mark(Mark::of(time)))
}

/// The answer of a function whose scale comes with it.
pub(crate) fn timed(time: sys::VrkTime) -> Result<Time, Error> {
    match time.scale {
        0 => at(time).map(Time::Tai),
        1 => at(time).map(Time::Utc),
        2 => at(time).map(Time::Gps),
        code => unreachable!("the library has no scale {code}"),
    }
}
