//! What the clocks of SBT and of GOCE have in common: a window of counts around a reference, read both ways. A clock that is kept
//! in UTC runs in TAI, by the leap list; one that is kept in TAI or GPS runs in its own scale and looks at no list.

use super::leap::List;
use super::time::{moment_at, since_day_0, Handed, Moment, Scale};
use super::Number;

pub trait Clock {
    fn scale(&self) -> Scale;

    fn accepted(&self) -> bool;

    /// The day on which the reference lies; it is in no second 60.
    fn reference_day(&self) -> i64;

    /// Microseconds since day 0 at k counts from the reference, rounded down, every day having 86,400 s. Of a UTC clock they are
    /// in UTC as it is at the reference: so many whole seconds more are TAI, before the rounding or after it.
    fn time(&self, k: i128) -> i128;

    /// How many counts back and ahead the clock may be relied on.
    fn window(&self) -> (u64, u64);

    fn ends(&self) -> (i128, i128) {
        let (back, ahead) = self.window();
        (-i128::from(back), i128::from(ahead))
    }

    fn covers(&self, micros: i128) -> bool {
        let (back, ahead) = self.ends();
        self.time(back) <= micros && micros <= self.time(ahead)
    }

    /// 5, where a list is used, and 6.
    fn usable(&self, list: &List) -> Result<(), Number> {
        if self.scale() == Scale::Utc && !list.accepted() {
            return Err(5);
        }
        if self.accepted() { Ok(()) } else { Err(6) }
    }

    /// What the reference has to be moved by; 9 where its day is expired.
    fn moved(&self, list: &List) -> Result<i128, Number> {
        if self.scale() == Scale::Utc { list.difference(self.reference_day()) } else { Ok(0) }
    }

    /// Where a time of the clock's scale lies on the count that it runs in; 9 and 10 where that is not known.
    fn place(&self, moment: Moment, list: &List) -> Result<i128, Number> {
        if self.scale() == Scale::Utc { list.to_tai(moment) } else { Ok(since_day_0(moment)) }
    }

    /// The time at such a place. In UTC 9 and 11: past the span's end every list is expired.
    fn at_place(&self, place: i128, list: &List) -> Result<Moment, Number> {
        if self.scale() == Scale::Utc {
            return list.to_utc(place);
        }
        let moment = moment_at(place);
        if self.scale().spans(moment) { Ok(moment) } else { Err(11) }
    }

    /// 5, 6, 7, 8, 17, 9, 10, 11 in this order, or the time at k counts from the reference.
    fn time_at(&self, k: i128, receipt: Moment, list: &List) -> Result<Moment, Number> {
        self.usable(list)?;
        if !self.scale().spans(receipt) {
            return Err(7);
        }
        let (back, ahead) = self.ends();
        if !(back <= k && k <= ahead) {
            return Err(8);
        }
        let (moved, received) = (self.moved(list), self.place(receipt, list));
        // the rest of 8, and 17, are judged only of a reference and a receipt that are both known
        if let (Ok(moved), Ok(received)) = (moved, received) {
            if !self.covers(received - moved) {
                return Err(8);
            }
            if self.time(k) + moved > received {
                return Err(17);
            }
        }
        let result = moved.and_then(|moved| self.at_place(self.time(k) + moved, list));
        Ok(both(received, result)?.1)
    }

    /// 4, 5, 6, 7, 8, 9, 10, 12 in this order, or the last count of the window whose time is not later, from the reference on.
    fn last_not_later(&self, handed: Handed, list: &List) -> Result<i128, Number> {
        handed.finite()?;
        self.usable(list)?;
        let moment = handed.moment()?;
        // of a time of another scale neither 8 nor 10 is judged, and 9 only of the reference
        let place = if handed.scale() == self.scale() { self.place(moment, list) } else { Err(12) };
        let (moved, place) = both(self.moved(list), place)?;
        let micros = place - moved;
        if !self.covers(micros) {
            return Err(8);
        }
        let (mut low, mut high) = self.ends();
        while low < high {
            let middle = (low + high + 1).div_euclid(2);
            if self.time(middle) <= micros { low = middle } else { high = middle - 1 }
        }
        Ok(low)
    }
}

/// Both, or the first refusal of the two; from 9 to 12 the numbers are in the order of judging.
fn both<A, B>(one: Result<A, Number>, other: Result<B, Number>) -> Result<(A, B), Number> {
    match (one, other) {
        (Err(one), Err(other)) => Err(one.min(other)),
        (one, other) => Ok((one?, other?)),
    }
}
