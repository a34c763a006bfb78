//! Envisat texts: `30-JUN-1997 23:59:60`, with `.123456`, with `TAI=`, `UTC=` or `GPS=` before either.

use crate::error::{answered, Error};
use crate::leap::LeapList;
use crate::sys;
use crate::time::{timed, Handed, Time};

/// The four forms, each by its length.
#[derive(Clone, Copy, PartialEq, Eq, Hash, Debug)]
pub enum Form {
    /// `30-JUN-1997 23:59:60`, UTC.
    Plain = 20,
    /// `TAI=01-JUL-1997 00:00:30`.
    Prefixed = 24,
    /// `30-JUN-1997 23:59:60.123456`, UTC.
    Micros = 27,
    /// `GPS=01-JUL-1997 00:00:11.123456`.
    PrefixedMicros = 31,
}

/// The time that a text stands for, in its own scale; without a prefix it is UTC. The list is looked at only for UTC.
/// Refused: 1; 3; 5; 7; 9; 10.
///
/// ```
/// use vrikshonem::{text, LeapList, Time, Utc};
/// let read = text::read("31-DEC-2016 23:59:60", &LeapList::PUBLISHED);
/// assert_eq!(read, Ok(Time::Utc(Utc::new(6209, 86_400_000_000))));
/// ```
pub fn read(text: impl AsRef<[u8]>, list: &LeapList<'_>) -> Result<Time, Error> {
    timed(sys::text_read(text.as_ref(), list.days, list.offsets, list.last))
}

/// Writes a time onto the front of `out`, and hands back the form's length. Nothing is written that reading would refuse.
/// Refused: 4; 5; 7; 9; 10; 12 a scale other than UTC without a prefix, a microsecond that the form cannot show; 13.
pub fn write(time: impl Into<Handed>, form: Form, list: &LeapList<'_>, out: &mut [u8]) -> Result<usize, Error> {
    let written = sys::text_write(time.into().given(), list.days, list.offsets, list.last, form as u32, out);
    answered(written.refusal, written.length as usize)
}

/// The same as a new string; 13 cannot be.
pub fn string(time: impl Into<Handed>, form: Form, list: &LeapList<'_>) -> Result<String, Error> {
    let mut text = [0; sys::image::TEXT_WRITE];
    let length = write(time, form, list, &mut text)?;
    Ok(text[..length].iter().map(|&byte| char::from(byte)).collect())
}
