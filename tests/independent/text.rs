//! The four Envisat texts.

use super::calendar::{date_of, day_of, Date};
use super::leap::List;
use super::time::{Handed, Moment, Record, Scale};
use super::Number;

const MONTHS: [&[u8]; 12] = [b"JAN", b"FEB", b"MAR", b"APR", b"MAY", b"JUN", b"JUL", b"AUG", b"SEP", b"OCT", b"NOV", b"DEC"];

fn digits(bytes: &[u8]) -> Result<u64, Number> {
    bytes.iter().try_fold(0, |n, b| if b.is_ascii_digit() { Ok(n * 10 + u64::from(b - b'0')) } else { Err(3) })
}

fn prefix(bytes: &[u8]) -> Result<Scale, Number> {
    match bytes {
        b"TAI=" => Ok(Scale::Tai),
        b"UTC=" => Ok(Scale::Utc),
        b"GPS=" => Ok(Scale::Gps),
        _ => Err(3),
    }
}

/// 1, 3, 5, 7, 9, 10 in this order, or the time.
pub fn read(text: &[u8], list: &List) -> Result<Record, Number> {
    if ![20, 24, 27, 31].contains(&text.len()) {
        return Err(1);
    }
    let prefixed = text.len() == 24 || text.len() == 31;
    let (scale, rest) = if prefixed { (prefix(&text[..4])?, &text[4..]) } else { (Scale::Utc, text) };
    let marks = [(2, b'-'), (6, b'-'), (11, b' '), (14, b':'), (17, b':'), (20, b'.')];
    if marks.iter().any(|&(at, mark)| at < rest.len() && rest[at] != mark) {
        return Err(3);
    }
    let month = MONTHS.iter().position(|&name| name == &rest[3..6]).ok_or(3 as Number)? as u64 + 1;
    let date = Date { day: digits(&rest[..2])?, month, year: digits(&rest[7..11])? as i64 };
    let (hour, minute, second) = (digits(&rest[12..14])?, digits(&rest[15..17])?, digits(&rest[18..20])?);
    let part = if rest.len() > 20 { digits(&rest[21..])? } else { 0 };
    let sixty = second == 60 && scale == Scale::Utc && (hour, minute) == (23, 59);
    if hour > 23 || minute > 59 || second > 59 && !sixty {
        return Err(3);
    }
    let day = day_of(&date)?;
    if scale == Scale::Utc && !list.accepted() {
        return Err(5);
    }
    if !(scale.first_day()..=scale.last_day()).contains(&day) {
        return Err(7);
    }
    let moment = Moment { day, micro: ((hour * 60 + minute) * 60 + second) * 1_000_000 + part };
    if scale == Scale::Utc {
        list.exists(moment)?;
    }
    Ok(Record::plain(scale, moment))
}

/// A time as text, without a prefix.
pub fn spelled(moment: Moment, micros: bool) -> Vec<u8> {
    let date = date_of(moment.day);
    // second 60 belongs to 23:59
    let seconds = moment.micro / 1_000_000;
    let minutes = (seconds / 60).min(24 * 60 - 1);
    let month = std::str::from_utf8(MONTHS[date.month as usize - 1]).expect("letters");
    let mut text = format!(
        "{:02}-{}-{:04} {:02}:{:02}:{:02}",
        date.day, month, date.year, minutes / 60, minutes % 60, seconds - minutes * 60
    );
    if micros {
        text += &format!(".{:06}", moment.micro % 1_000_000);
    }
    text.into_bytes()
}

/// 4, 5, 7, 9, 10, 12 in this order, or the text in the form of that length.
pub fn write(handed: Handed, form: usize, list: &List) -> Result<Vec<u8>, Number> {
    let scale = handed.scale();
    let prefixed = form == 24 || form == 31;
    let micros = form == 27 || form == 31;
    handed.finite()?;
    if scale == Scale::Utc && !list.accepted() {
        return Err(5);
    }
    let moment = handed.moment()?;
    if scale == Scale::Utc {
        list.exists(moment)?;
    }
    if !prefixed && scale != Scale::Utc || !micros && moment.micro % 1_000_000 != 0 {
        return Err(12);
    }
    let mut text = Vec::new();
    if prefixed {
        text.extend(match scale {
            Scale::Tai => b"TAI=",
            Scale::Utc => b"UTC=",
            Scale::Gps => b"GPS=",
        });
    }
    text.extend(spelled(moment, micros));
    Ok(text)
}
