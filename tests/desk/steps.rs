//! The seconds around every step, in each scale.

use crate::cases::Lines;
use crate::independent::leap::{change, List};
use crate::independent::lines::steps;
use crate::independent::text::spelled;
use crate::independent::time::{Handed, Moment, Record, Scale};

const DAY: u64 = 86_400_000_000;
const SECOND: u64 = 1_000_000;

/// The second before second 60, its last microsecond, the first and the last of second 60, and the next.
fn around(step: i64) -> [Moment; 5] {
    let last = |micro| Moment { day: step - 1, micro };
    [last(DAY - SECOND), last(DAY - 1), last(DAY), last(DAY + SECOND - 1), Moment { day: step, micro: 0 }]
}

/// With microseconds, and without them where the short form holds the time.
fn utc_lines(made: &mut Lines, prefix: &[u8], utc: Moment) {
    made.line([prefix, &spelled(utc, true)].concat());
    if utc.micro % SECOND == 0 {
        made.line([prefix, &spelled(utc, false)].concat());
    }
}

pub fn lines(made: &mut Lines) {
    let (days, offsets) = (steps(), (10..38).collect::<Vec<u64>>());
    let list = List { days: &days, offsets: &offsets, last: 9131 };
    for (&step, &offset) in days.iter().zip(&offsets).skip(1) {
        let day = String::from_utf8(spelled(Moment { day: step, micro: 0 }, false)).expect("letters");
        made.title(&format!("TAI minus UTC is {offset} s from {} on", &day[..11]));
        for prefix in [b"".as_slice(), b"UTC="] {
            around(step).iter().for_each(|&utc| utc_lines(made, prefix, utc));
        }
        for (scale, prefix) in [(Scale::Tai, b"TAI="), (Scale::Gps, b"GPS=")] {
            for utc in around(step) {
                // GPS begins in 1980.
                if let Ok(changed) = change(Handed::Record(Record::plain(Scale::Utc, utc)), scale, &list) {
                    made.line([prefix.as_slice(), &spelled(changed.moment, true)].concat());
                }
            }
        }
    }
}
