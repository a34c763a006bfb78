//! SBT ticks and their correlation.

use super::clock::Clock;
use super::leap::List;
use super::time::{since_day_0, Handed, Mark, Moment, Record, Scale, DAY};
use super::Number;

pub struct Correlation {
    pub tick: u32,
    pub scale: Scale,
    pub reference: Moment,
    pub period: u64,
    pub back: u64,
    pub ahead: u64,
}

impl Clock for Correlation {
    fn scale(&self) -> Scale {
        self.scale
    }

    fn accepted(&self) -> bool {
        self.scale.spans(self.reference)
            && i128::from(self.reference.micro) < DAY
            && (3_906_000_000..=3_906_500_000).contains(&self.period)
            && self.back <= 1 << 31
            && self.ahead < 1 << 31
    }

    fn reference_day(&self) -> i64 {
        self.reference.day
    }

    fn time(&self, k: i128) -> i128 {
        since_day_0(self.reference) + (k * i128::from(self.period)).div_euclid(1_000_000)
    }

    fn window(&self) -> (u64, u64) {
        (self.back, self.ahead)
    }
}

impl Correlation {
    /// 5, 6, 7, 8, 17, 9, 10, 11 in this order, or the tick's time, marked with the reference tick.
    pub fn date(&self, tick: u32, receipt: Moment, list: &List) -> Result<Record, Number> {
        // two's complement: the difference in 32 bits, as a signed number
        let moment = self.time_at(i128::from(tick.wrapping_sub(self.tick) as i32), receipt, list)?;
        Ok(Record { scale: self.scale, moment, mark: Mark::Correlated(self.tick.into()) })
    }

    /// 4, 5, 6, 7, 8, 9, 10, 12 in this order, or the last tick of the window whose time is not later.
    pub fn tick_of(&self, handed: Handed, list: &List) -> Result<u32, Number> {
        Ok(self.tick.wrapping_add(self.last_not_later(handed, list)? as i32 as u32))
    }
}
