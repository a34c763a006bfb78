//! GOCE's counts of 1/65536 s and their correlation, from document 02's requests 1, 2, 6 and 8, and document 002, 4.2.6.

use super::clock::Clock;
use super::leap::List;
use super::time::{Handed, Mark, Moment, Record, Scale};
use super::Number;

const WRAP: u64 = 1 << 48;
/// A day of 86,400 s, in counts.
const DAY: i128 = 86_400 * 65_536;

pub struct Correlation {
    pub obt0: u64,
    pub utc0: u64,
    pub offset: i64,
    pub gradient: u64,
    pub back: u64,
    pub ahead: u64,
}

impl Clock for Correlation {
    fn scale(&self) -> Scale {
        Scale::Utc
    }

    fn accepted(&self) -> bool {
        let (first, last) = (i128::from(self.scale().first_day()), i128::from(self.scale().last_day()));
        self.obt0 < WRAP
            && self.utc0 < WRAP
            && i128::from(self.offset).abs() <= DAY
            && (999_000_000..=1_001_000_000).contains(&self.gradient)
            && self.back <= 1 << 47
            && self.ahead < 1 << 47
            && (first..=last).contains(&self.reference().div_euclid(DAY))
    }

    fn reference_day(&self) -> i64 {
        self.reference().div_euclid(DAY) as i64
    }

    /// The exact sum is in billionths of a count, 65,536,000 to a microsecond; it alone is rounded.
    fn time(&self, k: i128) -> i128 {
        (self.reference() * 1_000_000_000 + k * i128::from(self.gradient)).div_euclid(65_536_000)
    }

    fn window(&self) -> (u64, u64) {
        (self.back, self.ahead)
    }
}

impl Correlation {
    /// UTC at OBT0, in counts since day 0, in days of 86,400 s.
    fn reference(&self) -> i128 {
        i128::from(self.utc0) + i128::from(self.offset)
    }

    /// 3, 5, 6, 7, 8, 17, 9, 10, 11 in this order, or the count's time, marked with the reference count.
    pub fn date(&self, obt: u64, receipt: Moment, list: &List) -> Result<Record, Number> {
        if obt >= WRAP {
            return Err(3);
        }
        let (wrap, half) = (i128::from(WRAP), i128::from(WRAP / 2));
        let k = (i128::from(obt) - i128::from(self.obt0) + half).rem_euclid(wrap) - half;
        let moment = self.time_at(k, receipt, list)?;
        Ok(Record { scale: self.scale(), moment, mark: Mark::Correlated(self.obt0) })
    }

    /// 4, 5, 6, 7, 8, 9, 10, 12 in this order, or the last count of the window whose time is not later.
    pub fn count_of(&self, handed: Handed, list: &List) -> Result<u64, Number> {
        Ok((i128::from(self.obt0) + self.last_not_later(handed, list)?).rem_euclid(i128::from(WRAP)) as u64)
    }
}
