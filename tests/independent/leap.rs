//! The leap list and the changes of scale.

use super::calendar::first_of_month;
use super::time::{moment_at, since_day_0, Handed, Moment, Record, Scale, DAY};
use super::Number;

const SECOND: i128 = 1_000_000;

pub struct List<'a> {
    pub days: &'a [i64],
    pub offsets: &'a [u64],
    pub last: i64,
}

impl List<'_> {
    pub fn accepted(&self) -> bool {
        let (days, offsets) = (self.days, self.offsets);
        days.len() == offsets.len()
            && (1..=64).contains(&days.len())
            && (days[0], offsets[0]) == (-10227, 10)
            && days.windows(2).all(|pair| pair[0] < pair[1])
            && days.iter().all(|&day| first_of_month(day))
            && offsets.windows(2).all(|pair| pair[0].checked_add(1) == Some(pair[1]))
            && (-10227..=36524).contains(&self.last)
            && days.iter().all(|&day| day <= self.last + 1)
    }

    fn steps(&self) -> impl DoubleEndedIterator<Item = (i64, i128)> + '_ {
        self.days.iter().copied().zip(self.offsets.iter().map(|&offset| i128::from(offset)))
    }

    /// TAI minus UTC, in seconds, on a day not before the first step.
    fn offset(&self, day: i64) -> i128 {
        self.steps().rev().find(|&(step, _)| step <= day).expect("the first step is the span's first day").1
    }

    /// 9 and 10 of a UTC time.
    pub fn exists(&self, moment: Moment) -> Result<(), Number> {
        if moment.day > self.last {
            return Err(9);
        }
        if i128::from(moment.micro) >= DAY && !self.days.contains(&(moment.day + 1)) {
            return Err(10);
        }
        Ok(())
    }

    /// TAI minus UTC on a day, in microseconds; 9 where the day is expired.
    pub fn difference(&self, day: i64) -> Result<i128, Number> {
        self.exists(Moment { day, micro: 0 })?;
        Ok(self.offset(day) * SECOND)
    }

    pub fn to_tai(&self, moment: Moment) -> Result<i128, Number> {
        self.exists(moment)?;
        Ok(since_day_0(moment) + self.difference(moment.day)?)
    }

    /// 9, then 11 before the first UTC time, or the UTC time whose TAI this is.
    pub fn to_utc(&self, tai: i128) -> Result<Moment, Number> {
        let end = i128::from(self.last + 1) * DAY + self.offset(self.last + 1) * SECOND;
        if tai >= end {
            return Err(9);
        }
        for (step, offset) in self.steps().rev() {
            let begin = i128::from(step) * DAY + offset * SECOND;
            if tai >= begin {
                return Ok(moment_at(tai - offset * SECOND));
            }
            // the second before a step is the day before's 61st, but for the first step, before which there is no UTC here
            if tai >= begin - SECOND && step > -10227 {
                return Ok(Moment { day: step - 1, micro: (DAY + tai - (begin - SECOND)) as u64 });
            }
        }
        Err(11)
    }
}

/// 4, 5, 7, 9, 10, 11 in this order, or the time in the scale that is wanted, with the mark that was handed in.
pub fn change(handed: Handed, to: Scale, list: &List) -> Result<Record, Number> {
    Ok(Record { scale: to, moment: changed(handed, to, list)?, mark: handed.mark() })
}

fn changed(handed: Handed, to: Scale, list: &List) -> Result<Moment, Number> {
    let from = handed.scale();
    handed.finite()?;
    if (from == Scale::Utc || to == Scale::Utc) && !list.accepted() {
        return Err(5);
    }
    let moment = handed.moment()?;
    if from == to {
        if from == Scale::Utc {
            list.exists(moment)?;
        }
        return Ok(moment);
    }
    let tai = match from {
        Scale::Tai => since_day_0(moment),
        Scale::Gps => since_day_0(moment) + 19 * SECOND,
        Scale::Utc => list.to_tai(moment)?,
    };
    let result = match to {
        Scale::Tai => moment_at(tai),
        Scale::Gps => moment_at(tai - 19 * SECOND),
        Scale::Utc => list.to_utc(tai)?,
    };
    if (to.first_day()..=to.last_day()).contains(&result.day) { Ok(result) } else { Err(11) }
}
