//! The Gregorian rule, year by year and month by month.

pub fn leap(year: i64) -> bool {
    year % 4 == 0 && (year % 100 != 0 || year % 400 == 0)
}

pub fn month_length(year: i64, month: u64) -> u64 {
    match month {
        2 if leap(year) => 29,
        2 => 28,
        4 | 6 | 9 | 11 => 30,
        _ => 31,
    }
}

/// The day of 1 January of a year not before 0, counted from 1 January 2000.
fn new_year(year: i64) -> i64 {
    // The years before this one that were leap years: every fourth, but three of four centuries.
    let leaps = |y: i64| (y + 3) / 4 - (y + 99) / 100 + (y + 399) / 400;
    year * 365 + leaps(year) - (2000 * 365 + leaps(2000))
}

pub struct Date {
    pub year: i64,
    pub month: u64,
    pub day: u64,
}

/// 3 where the rule lacks the date, over years 0000 to 9999.
pub fn day_of(date: &Date) -> Result<i64, u64> {
    let real = (0..=9999).contains(&date.year) && (1..=12).contains(&date.month) && (1..=month_length(date.year, date.month)).contains(&date.day);
    if !real {
        return Err(3);
    }
    let months: u64 = (1..date.month).map(|m| month_length(date.year, m)).sum();
    Ok(new_year(date.year) + (months + date.day - 1) as i64)
}

/// The date of a day of the span, or of the first days of 2100.
pub fn date_of(day: i64) -> Date {
    // no later than the year itself
    let mut year = 1999 + day.div_euclid(365);
    while new_year(year + 1) <= day {
        year += 1;
    }
    let mut left = (day - new_year(year)) as u64;
    let mut month = 1;
    while left >= month_length(year, month) {
        left -= month_length(year, month);
        month += 1;
    }
    Date { year, month, day: left + 1 }
}

/// A first of a month, January 1972 to January 2100.
pub fn first_of_month(day: i64) -> bool {
    (-10227..=36525).contains(&day) && date_of(day).day == 1
}
