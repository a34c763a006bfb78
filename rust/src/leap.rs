//! The leap list, and changes of scale.

use crate::error::Error;
use crate::sys;
use crate::time::{at, Handed, Scaled};

const DAYS: [i64; 28] = [
    -10227, -10045, -9861, -9496, -9131, -8766, -8400, -8035, -7670, -7305, -6758, -6393, -6028, -5297, -4383, -3652, -3287,
    -2740, -2375, -2010, -1461, -914, -365, 2192, 3288, 4565, 5660, 6210,
];
const OFFSETS: [u64; 28] =
    [10, 11, 12, 13, 14, 15, 16, 17, 18, 19, 20, 21, 22, 23, 24, 25, 26, 27, 28, 29, 30, 31, 32, 33, 34, 35, 36, 37];

/// A leap list, borrowed: the steps' days, TAI minus UTC in seconds from each day on, and the last day that it speaks of.
///
/// Any list can be built. One that is not accepted is refused with 5 where it is used, and only there.
#[derive(Clone, Copy, PartialEq, Eq, Debug)]
pub struct LeapList<'a> {
    /// The steps' days, rising, firsts of months; the first is -10227.
    pub days: &'a [i64],
    /// TAI minus UTC from each of these days on, counting up from 10.
    pub offsets: &'a [u64],
    /// The last day E that the list speaks of. UTC days after it are refused with 9.
    pub last: i64,
}

impl LeapList<'static> {
    /// The published 28 steps, to 31 December 2024.
    pub const PUBLISHED: LeapList<'static> = LeapList { days: &DAYS, offsets: &OFFSETS, last: 9131 };
}

impl LeapList<'_> {
    /// Whether the list is accepted: 1 to 64 steps from (-10227, 10) on, days that rise strictly and are firsts of months,
    /// offsets that count up by one, a last day from -10227 to 36524, no step later than the day after it.
    ///
    /// ```
    /// use vrikshonem::LeapList;
    /// assert!(LeapList::PUBLISHED.is_accepted());
    /// // a step that is no first of a month
    /// assert!(!LeapList { days: &[-10227, -10044], offsets: &[10, 11], last: 0 }.is_accepted());
    /// ```
    pub fn is_accepted(&self) -> bool {
        sys::list_accepted(self.days, self.offsets, self.last) == 1
    }
}

/// The same instant in another scale, with the same mark; in its own scale a time stays as it is. The list is looked at only
/// where UTC is one of the two. Refused: 4; 5; 7; 9; 10; 11.
///
/// ```
/// use vrikshonem::{change, Handed, LeapList, Scale, Tai};
/// let noon = Handed::Decimal(6209.5, Scale::Utc);
/// assert_eq!(change(noon, &LeapList::PUBLISHED), Ok(Tai::new(6209, 43_236_000_000)));
/// ```
pub fn change<T: Scaled>(time: impl Into<Handed>, list: &LeapList<'_>) -> Result<T, Error> {
    at(sys::change(time.into().given(), T::SCALE.code(), list.days, list.offsets, list.last))
}
