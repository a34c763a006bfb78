//! The program of text lines, under the published list: whole input to whole output.

use super::calendar::{day_of, Date};
use super::leap::{change, List};
use super::text::{read, write};
use super::time::{Handed, Scale};
use super::Number;

/// The years whose 1 January, and whose 1 July, is a step.
const JANUARY: [i64; 17] =
    [1972, 1973, 1974, 1975, 1976, 1977, 1978, 1979, 1980, 1988, 1990, 1991, 1996, 1999, 2006, 2009, 2017];
const JULY: [i64; 11] = [1972, 1981, 1982, 1983, 1985, 1992, 1993, 1994, 1997, 2012, 2015];

/// The days of the 28 steps; offsets 10 to 37.
pub fn steps() -> Vec<i64> {
    let first = |year, month| day_of(&Date { year, month, day: 1 }).expect("a first of a month");
    let mut days: Vec<i64> = JANUARY.iter().map(|&year| first(year, 1)).collect();
    days.extend(JULY.iter().map(|&year| first(year, 7)));
    days.sort();
    days
}

fn dated(line: &[u8], list: &List) -> Result<Vec<u8>, Number> {
    let record = read(line, list)?;
    let tai = change(Handed::Record(record), Scale::Tai, list)?;
    write(Handed::Record(tai), 31, list)
}

/// One line of output for each line of input.
pub fn answers(input: &[u8]) -> Vec<u8> {
    let (days, offsets) = (steps(), (10..38).collect::<Vec<u64>>());
    let list = List { days: &days, offsets: &offsets, last: 9131 };
    let mut lines: Vec<&[u8]> = input.split(|&byte| byte == b'\n').collect();
    // What stands behind the last newline is a line only where it is not empty.
    if lines.last() == Some(&b"".as_slice()) {
        lines.pop();
    }
    let mut output = Vec::new();
    for line in lines {
        output.extend(dated(line, &list).unwrap_or_else(|number| format!("refused {number}").into_bytes()));
        output.push(b'\n');
    }
    output
}
