//! The season's file: up to 512 TAI correlations of SBT in one, from document 02's fourth request.

use super::clock::Clock;
use super::correlation::Correlation;
use super::layouts::{field, number};
use super::time::{moment_at, since_day_0, Moment, Scale};
use super::Number;

const MOST: usize = 512;
/// The words in which a correlation is handed in.
const WORDS: usize = 7;

/// The first and the last covered microsecond since day 0.
#[derive(Clone, Copy, PartialEq, Eq, Debug)]
pub struct Cover {
    pub first: i64,
    pub last: i64,
}

pub struct Entry {
    pub cover: Cover,
    pub correlation: Correlation,
}

/// Covered means time(-b) to time(a); of an accepted correlation both have 64 bits.
fn covered(correlation: &Correlation) -> Cover {
    let (back, ahead) = correlation.ends();
    Cover { first: correlation.time(back) as i64, last: correlation.time(ahead) as i64 }
}

fn accepted(correlation: &Correlation) -> bool {
    correlation.scale == Scale::Tai && correlation.accepted()
}

/// No cover ends before it begins; covers rise, never overlap, and do not touch.
fn rise(covers: &[Cover]) -> bool {
    covers.iter().all(|cover| cover.first <= cover.last) && covers.windows(2).all(|two| two[0].last < two[1].first)
}

/// The covers, or 14 for what the question checks: length, count, positions and covers.
fn contents(bytes: &[u8]) -> Result<Vec<Cover>, Number> {
    let count = bytes.get(..2).map(|two| number(two) as usize).ok_or(14u64)?;
    if count > MOST || bytes.len() != 2 + 48 * count {
        return Err(14);
    }
    let entries = || bytes[2..2 + 20 * count].chunks(20);
    let placed = entries().enumerate().all(|(i, entry)| number(&entry[16..]) as usize == 2 + 20 * count + 28 * i);
    let signed = |eight: &[u8]| number(eight) as i64;
    let covers: Vec<Cover> = entries().map(|entry| Cover { first: signed(&entry[..8]), last: signed(&entry[8..16]) }).collect();
    if placed && rise(&covers) { Ok(covers) } else { Err(14) }
}

/// The correlation of 28 bytes; the reference's day and microsecond are by floor.
fn body(bytes: &[u8]) -> Correlation {
    Correlation {
        tick: number(&bytes[..4]) as u32,
        scale: Scale::Tai,
        reference: moment_at(i128::from(number(&bytes[4..12]) as i64)),
        period: number(&bytes[12..20]),
        back: number(&bytes[20..24]),
        ahead: number(&bytes[24..]),
    }
}

/// 14 for any rule, or the entries.
pub fn read(bytes: &[u8]) -> Result<Vec<Entry>, Number> {
    let covers = contents(bytes)?;
    let bodies = bytes[2 + 20 * covers.len()..].chunks(28).map(body);
    let entries: Vec<Entry> = covers.iter().zip(bodies).map(|(&cover, correlation)| Entry { cover, correlation }).collect();
    let told = |entry: &Entry| accepted(&entry.correlation) && covered(&entry.correlation) == entry.cover;
    if entries.iter().all(told) { Ok(entries) } else { Err(14) }
}

/// Tick, scale, day, microsecond, period, back, ahead; none where a word is no value of its field.
fn correlation(words: &[i64]) -> Option<Correlation> {
    let unsigned = |at: usize| u64::try_from(words[at]).ok();
    Some(Correlation {
        tick: u32::try_from(words[0]).ok()?,
        scale: Scale::coded(unsigned(1)?)?,
        reference: Moment { day: words[2], micro: unsigned(3)? },
        period: unsigned(4)?,
        back: unsigned(5)?,
        ahead: unsigned(6)?,
    })
}

/// 14 for any rule, or the file.
pub fn write(words: &[i64]) -> Result<Vec<u8>, Number> {
    let count = words.len() / WORDS;
    if words.len() % WORDS != 0 || count > MOST {
        return Err(14);
    }
    let all: Vec<Correlation> = words.chunks(WORDS).map(correlation).collect::<Option<_>>().ok_or(14u64)?;
    let covers: Vec<Cover> = all.iter().filter(|one| accepted(one)).map(covered).collect();
    if covers.len() != count || !rise(&covers) {
        return Err(14);
    }
    let mut bytes = field(2, count as u64);
    for (i, cover) in covers.iter().enumerate() {
        bytes.extend(field(8, cover.first as u64));
        bytes.extend(field(8, cover.last as u64));
        bytes.extend(field(4, (2 + 20 * count + 28 * i) as u64));
    }
    for one in all {
        bytes.extend(field(4, one.tick.into()));
        bytes.extend(field(8, since_day_0(one.reference) as u64));
        bytes.extend(field(8, one.period));
        bytes.extend(field(4, one.back));
        bytes.extend(field(4, one.ahead));
    }
    Ok(bytes)
}

/// 14, 7, 15 in this order, or the cover of the one entry that has the receipt.
pub fn covering(bytes: &[u8], receipt: Moment) -> Result<Cover, Number> {
    let asked = contents(bytes)?;
    if !Scale::Tai.spans(receipt) {
        return Err(7);
    }
    let at = since_day_0(receipt);
    asked.into_iter().find(|cover| i128::from(cover.first) <= at && at <= i128::from(cover.last)).ok_or(15)
}
