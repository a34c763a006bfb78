//! Times as calls and answers have them, and the leap list of a call, for the laws.

use crate::calls::{Answer, Call, Function};

const DAY: u64 = 86_400_000_000;
/// By the scales' codes: the first day, and where a day's microseconds end at the latest.
const SPANS: [(i64, u64); 3] = [(-10227, DAY), (-10227, DAY + 1_000_000), (-7300, DAY)];
pub const LAST_DAY: i64 = 36524;
pub const UTC: u64 = 1;

#[derive(Clone, Copy, PartialEq)]
pub struct Time {
    pub scale: u64,
    pub day: i64,
    pub micro: u64,
}

impl Time {
    /// Where the answer of a function is a time.
    pub fn answered(function: Function, answer: &Answer) -> Option<Time> {
        let field = |name| function.shape().gives(name).map(|at| answer.words[at]);
        Some(Time { scale: field("scale")?, day: field("day")? as i64, micro: field("micro")? })
    }

    /// The record that is handed in; a record's kind is 0.
    pub fn handed(call: &Call) -> Option<Time> {
        let field = |name| call.function.shape().field("time", name).map(|at| call.words[at]);
        let time = Time { scale: field("scale")?, day: field("day")? as i64, micro: field("micro")? };
        (field("kind")? == 0).then_some(time)
    }

    /// When what is dated in a scale was received.
    pub fn received(call: &Call, scale: u64) -> Option<Time> {
        let word = |name| call.function.shape().words(name).map(|place| call.words[place.start]);
        Some(Time { scale, day: word("receipt_day")? as i64, micro: word("receipt_micro")? })
    }

    /// Microseconds since day 0, of UTC with its leap seconds where the call has a list.
    fn micros(self, call: &Call) -> i128 {
        let seconds = if self.scale == UTC { List::of(call).map_or(0, |list| list.offset(self.day)) } else { 0 };
        i128::from(self.day) * i128::from(DAY) + i128::from(self.micro) + i128::from(seconds) * 1_000_000
    }

    pub fn span(self) -> Option<(i64, u64)> {
        SPANS.get(usize::try_from(self.scale).ok()?).copied()
    }

    pub fn is_in_span(self) -> bool {
        self.span().is_some_and(|(first, end)| (first..=LAST_DAY).contains(&self.day) && self.micro < end)
    }

    /// Whether it is later than another time of its scale; in UTC by the list of the call.
    pub fn is_later(self, other: Time, call: &Call) -> bool {
        self.micros(call) > other.micros(call)
    }

    /// The time itself, or one at most so many microseconds earlier; by the list of the call, without which it is no second 60.
    pub fn comes_back(self, as_time: Time, early: u64, call: &Call) -> bool {
        let earlier = self.micros(call) - as_time.micros(call);
        let told = as_time.micro < DAY || List::of(call).is_some();
        self == as_time || self.scale == as_time.scale && told && (1..=early.into()).contains(&earlier)
    }
}

/// The leap list of a call, as it is handed in.
pub struct List {
    days: Vec<i64>,
    offsets: Vec<u64>,
    last: i64,
}

impl List {
    pub fn of(call: &Call) -> Option<List> {
        let shape = call.function.shape();
        shape.slice("days").zip(shape.slice("offsets"))?;
        let days = call.list("days").into_iter().map(|day| day as i64).collect();
        Some(List { days, offsets: call.list("offsets"), last: call.number("last") as i64 })
    }

    /// Of an accepted list TAI minus UTC on a day, in seconds.
    fn offset(&self, day: i64) -> u64 {
        self.days.iter().zip(&self.offsets).filter(|(step, _)| **step <= day).map(|(_, offset)| *offset).last().unwrap_or(0)
    }

    /// Whether a UTC time that is answered can be: of a day that the list tells of, in a second that the day has.
    pub fn knows(&self, time: Time) -> bool {
        time.day <= self.last && (time.micro < DAY || self.days.contains(&(time.day + 1)))
    }
}
