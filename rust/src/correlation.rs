//! SBT ticks, GOCE counts, and the correlation of each.

use crate::error::{answered, Error};
use crate::leap::LeapList;
use crate::sys;
use crate::time::{at, Handed, Scaled, Utc};

/// An SBT tick, a counter of 32 bits. It means nothing without its [`SbtCorrelation`].
#[derive(Clone, Copy, PartialEq, Eq, Hash, Debug)]
pub struct Tick(pub u32);

/// A correlation in the scale of `T`: one tick, the time it stood for, and how long it may be relied on.
///
/// Any correlation can be built. One that is not accepted is refused with 6 by each function.
///
/// ```
/// use vrikshonem::{Error, LeapList, SbtCorrelation, Tick, Utc};
/// let list = LeapList::PUBLISHED;
/// let autumn = SbtCorrelation {
///     tick: Tick(0xFFFF_FFFF),
///     reference: Utc::new(640, 36_000_000_000),
///     period: 3_906_250_000,
///     back: 1,
///     ahead: 663_552_000,
/// };
/// let received = Utc::new(640, 36_060_000_000);
/// assert_eq!(autumn.date(Tick(0), received, &list), Ok(Utc::new(640, 36_000_003_906)));
/// // received in March: the correlation is no longer in force
/// assert_eq!(autumn.date(Tick(0), Utc::new(786, 9_600_000_000), &list), Err(Error::NOT_IN_FORCE));
/// // received before it was sent: the receipt, the correlation or the counter is wrong
/// assert_eq!(autumn.date(Tick(0), autumn.reference, &list), Err(Error::RESULT_LATER));
/// ```
///
/// A UTC correlation counts in TAI, by the list, so that the leap seconds between two ticks count. One in TAI or GPS looks at no
/// list, and any will do.
///
/// ```
/// # use vrikshonem::{LeapList, SbtCorrelation, Tick, Utc};
/// # let list = LeapList::PUBLISHED;
/// // 31 December 2016, 23:59:59; a second is 256 ticks
/// let night = SbtCorrelation {
///     tick: Tick(7),
///     reference: Utc::new(6209, 86_399_000_000),
///     period: 3_906_250_000,
///     back: 2_000,
///     ahead: 2_000,
/// };
/// let received = Utc::new(6210, 1_000_000);
/// assert_eq!(night.date(Tick(263), received, &list), Ok(Utc::new(6209, 86_400_000_000)));
/// assert_eq!(night.date(Tick(519), received, &list), Ok(Utc::new(6210, 0)));
/// assert_eq!(night.tick_of(Utc::new(6209, 86_400_000_000), &list), Ok(Tick(263)));
/// ```
#[derive(Clone, Copy, PartialEq, Eq, Debug)]
pub struct SbtCorrelation<T> {
    /// The reference tick.
    pub tick: Tick,
    /// The time that it stood for, below microsecond 86,400,000,000.
    pub reference: T,
    /// Picoseconds of a tick, from 3,906,000,000 to 3,906,500,000.
    pub period: u64,
    /// Ticks back, to 2^31.
    pub back: u64,
    /// Ticks ahead, to 2^31 - 1.
    pub ahead: u64,
}

impl<T: Scaled> SbtCorrelation<T> {
    fn given(&self) -> sys::VrkSbtCorrelation {
        sys::VrkSbtCorrelation {
            tick: self.tick.0,
            scale: T::SCALE.code(),
            day: self.reference.day(),
            micro: self.reference.micro(),
            period: self.period,
            back: self.back,
            ahead: self.ahead,
        }
    }

    /// The time of a tick whose packet was received at `receipt`, rounded down, and marked
    /// [`Mark::Correlated`](crate::Mark::Correlated) with the reference tick. The list is looked at only where `T` is [`Utc`].
    /// Refused: 5; 6; 7 for the receipt; 8 where the tick lies outside the window or the receipt outside the window's times; 17
    /// where the result is later than the receipt, which of UTC is judged in TAI and, as 8 is of the receipt, only where reference
    /// and receipt are both known; 9 for reference or receipt, or for the result where the receipt's second is lacking; 10 for the
    /// receipt; 11 for a result before the scale's first day.
    pub fn date(&self, tick: Tick, receipt: T, list: &LeapList<'_>) -> Result<T, Error> {
        at(sys::sbt_date(tick.0, self.given(), receipt.day(), receipt.micro(), list.days, list.offsets, list.last))
    }

    /// The last tick of the window whose time is not later. The list is looked at only where `T` is [`Utc`]. Refused: 4; 5; 6; 7;
    /// 8 outside the window's times, judged only of the correlation's scale, and of UTC only where reference and time are both
    /// known; 9 for the reference, and for a UTC time; 10 for a UTC time; 12 another scale.
    pub fn tick_of(&self, time: impl Into<Handed>, list: &LeapList<'_>) -> Result<Tick, Error> {
        let counted = sys::sbt_tick(time.into().given(), self.given(), list.days, list.offsets, list.last);
        answered(counted.refusal, Tick(counted.count as u32))
    }
}

/// A correlation of GOCE's clock, always in UTC: one count, the time it stood for, the clock's rate, and how long it may be
/// relied on. A count is 1/65536 s. The reference is Offset + UTC0 from 1 January 2000, in days of 86,400 s; Gradient x (OBT - OBT0)
/// is added to it in TAI, by the leap list.
///
/// Any correlation can be built. One that is not accepted is refused with 6 by each function.
///
/// ```
/// use vrikshonem::{Error, GoceCorrelation, LeapList, Utc};
/// let list = LeapList::PUBLISHED;
/// // a second before the counter's wrap; UTC0 and Offset together are 17 March 2009, 16:00:00
/// let launch = GoceCorrelation {
///     obt0: 0xFFFF_FFFF_0000,
///     utc0: (3363 * 86_400 + 57_601) * 65_536,
///     offset: -65_536,
///     gradient: 1_000_000_021,
///     back: 0,
///     ahead: 30 * 86_400 * 65_536,
/// };
/// let received = Utc::new(3363, 57_660_000_000);
/// assert_eq!(launch.date(1, received, &list), Ok(Utc::new(3363, 57_601_000_015)));
/// assert_eq!(launch.count_of(Utc::new(3363, 57_601_000_015), &list), Ok(1));
/// // received in May: the correlation is no longer in force
/// assert_eq!(launch.date(1, Utc::new(3410, 0), &list), Err(Error::NOT_IN_FORCE));
/// ```
#[derive(Clone, Copy, PartialEq, Eq, Debug)]
pub struct GoceCorrelation {
    /// The reference count, below 2^48.
    pub obt0: u64,
    /// The time that it stood for, in counts, before the offset is added; below 2^48.
    pub utc0: u64,
    /// Counts that are added to it, at most one day (5,662,310,400) either way. The sum lies in the UTC span.
    pub offset: i64,
    /// The clock's rate in billionths, from 999,000,000 to 1,001,000,000.
    pub gradient: u64,
    /// Counts back, to 2^47.
    pub back: u64,
    /// Counts ahead, to 2^47 - 1.
    pub ahead: u64,
}

impl GoceCorrelation {
    fn given(&self) -> sys::VrkGoceCorrelation {
        let GoceCorrelation { obt0, utc0, offset, gradient, back, ahead } = *self;
        sys::VrkGoceCorrelation { obt0, utc0, offset, gradient, back, ahead }
    }

    /// The time of a count whose packet was received at `receipt`, rounded down once, and marked
    /// [`Mark::Correlated`](crate::Mark::Correlated) with `obt0`. Refused: 3 from 2^48 on; 5; 6; 7 for the receipt; 8 where the count
    /// lies outside the window or the receipt outside the window's times; 17 where the result is later than the receipt, which is
    /// judged in TAI and, as 8 is of the receipt, only where reference and receipt are both known; 9 for reference or receipt, or
    /// for the result where the receipt's second is lacking; 10 for the receipt; 11 for a result before 1972.
    pub fn date(&self, obt: u64, receipt: Utc, list: &LeapList<'_>) -> Result<Utc, Error> {
        at(sys::goce_date(obt, self.given(), receipt.day, receipt.micro, list.days, list.offsets, list.last))
    }

    /// The last count of the window whose time is not later. Refused: 4; 5; 6; 7; 8 outside the window's times, judged only of
    /// UTC, where reference and time are both known; 9 for the reference, and for a UTC time; 10 for a UTC time; 12 another scale
    /// than UTC.
    pub fn count_of(&self, time: impl Into<Handed>, list: &LeapList<'_>) -> Result<u64, Error> {
        let counted = sys::goce_count(time.into().given(), self.given(), list.days, list.offsets, list.last);
        answered(counted.refusal, counted.count)
    }
}
