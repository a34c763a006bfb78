//! SIRAL later in the second: a part of the module `siral`.

use crate::error::{answered, Error};
use crate::sys;

/// What [`run`] has dated.
#[derive(Clone, Copy, PartialEq, Eq, Hash, Debug)]
pub struct Run {
    /// The number of packets, each of which has a date.
    pub count: usize,
    /// The last packet's total, which is told to the next part of the run.
    pub last: u64,
}

/// Dates a run: packets of one second, ten bytes each, in the order in which they were made. It writes a date for each onto
/// the front of `dates`, the microseconds since the beginning of day 0 in TAI, and leaves the places after them.
///
/// Day, millisecond and microsecond stand still from one second's pulse to the next; only the extra counter counts on, and it
/// rolls over after 65,536 units, which are 135,168 microseconds. [`read`](crate::siral::read) takes it as it stands, and so
/// dates a packet after the first roll too early. In a run the first packet's total is its extra counter, and each next total
/// is the least number not below the one before that is its packet's extra counter modulo 65,536. The dates are right where the
/// first packet lies before the first roll and neighbours are less than one roll apart. They never fall.
///
/// `told` is 0 where a run begins. A run that comes in parts is told on: with the `last` of the part before as `told`, the parts
/// together have the dates of the whole. An empty run is answered with no dates and `last` as told.
///
/// A refusal leaves `dates` as it was. Refused: 1 a number of bytes that is no multiple of ten; 3 a millisecond or microsecond
/// over its limit in any packet; 16 packets that differ in day, millisecond or microsecond, a total above 484,848, which is the
/// last below a second; 7 a date; 13 fewer dates than packets.
///
/// ```
/// use vrikshonem::{siral, Error};
///
/// let packet = |millisecond, extra| {
///     let mut bytes = [0; siral::LENGTH];
///     siral::write_fields(siral::Fields { day: 0, millisecond, microsecond: 0, extra }, &mut bytes).map(|_| bytes)
/// };
/// // 22,000 units apart: the counter rolls before the second packet
/// let packets = [packet(1000, 60_000)?, packet(1000, 16_464)?, packet(1000, 38_464)?].concat();
/// let mut dates = [0; 3];
/// assert_eq!(siral::run(&packets, 0, &mut dates), Ok(siral::Run { count: 3, last: 104_000 }));
/// assert_eq!(dates, [1_123_750, 1_169_125, 1_214_500]);
///
/// // the same in two parts
/// let mut parts = [0; 3];
/// let first = siral::run(&packets[..10], 0, &mut parts)?;
/// let rest = siral::run(&packets[10..], first.last, &mut parts[first.count..])?;
/// assert_eq!((parts, rest.last), (dates, 104_000));
///
/// // a packet of the next second begins another run
/// let mixed = [packet(1000, 60_000)?, packet(2000, 0)?].concat();
/// assert_eq!(siral::run(&mixed, 0, &mut dates), Err(Error::NOT_ONE_SECOND));
/// # Ok::<(), vrikshonem::Error>(())
/// ```
pub fn run(bytes: &[u8], told: u64, dates: &mut [i64]) -> Result<Run, Error> {
    let ran = sys::siral_run(bytes, told, dates);
    answered(ran.refusal, Run { count: ran.count as usize, last: ran.last })
}
