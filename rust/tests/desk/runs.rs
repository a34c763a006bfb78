//! SIRAL's runs.

use super::DAY;
use vrikshonem::siral::{read, run, write_fields, Fields, Run, LENGTH};
use vrikshonem::*;

// A second that passes midnight, and its first microsecond.
const PULSE: Fields = Fields { day: 4017, millisecond: 86_399_500, microsecond: 250, extra: 0 };
const BEGIN: i64 = 4017 * DAY as i64 + 86_399_500_250;
// Equal neighbours, some that are a unit less than a roll apart, and the last total of all.
const TOTALS: [u64; 13] =
    [0, 0, 1, 65_535, 65_536, 65_536, 131_071, 196_606, 262_141, 327_676, 393_211, 458_746, 484_848];

fn packets(fields: Fields, totals: &[u64]) -> Vec<u8> {
    let packet = |total: &u64| {
        let mut bytes = [0; LENGTH];
        write_fields(Fields { extra: (total % 65_536) as u32, ..fields }, &mut bytes).expect("the fields are in their limits");
        bytes
    };
    totals.iter().flat_map(packet).collect()
}

#[test]
fn a_second_is_dated_together() {
    let bytes = packets(PULSE, &TOTALS);
    let mut dates = [-1; 15];
    assert_eq!(run(&bytes, 0, &mut dates), Ok(Run { count: 13, last: 484_848 }));
    assert_eq!(dates[..13], TOTALS.map(|total| BEGIN + (total * 33 / 16) as i64));
    assert_eq!((dates[3], dates[4], dates[12]), (BEGIN + 135_165, BEGIN + 135_168, BEGIN + 999_999));
    // the places after them stay
    assert_eq!(dates[13..], [-1, -1]);
    // alone, the packet after the first roll is dated at the second's beginning
    assert_eq!(read(&bytes[40..50]), Ok(Tai::new(4017, 86_399_500_250)));
}

#[test]
fn parts_are_told_on() {
    let bytes = packets(PULSE, &TOTALS);
    let mut whole = [0; 13];
    assert_eq!(run(&bytes, 0, &mut whole), Ok(Run { count: 13, last: 484_848 }));
    for cut in 0..=13 {
        let (front, back) = bytes.split_at(LENGTH * cut);
        let mut dates = [0; 13];
        let first = run(front, 0, &mut dates).expect("a part is a run");
        assert_eq!(first.count, cut);
        let rest = run(back, first.last, &mut dates[cut..]);
        assert_eq!(rest, Ok(Run { count: 13 - cut, last: 484_848 }), "{cut}");
        assert_eq!(dates, whole, "{cut}");
    }
}

#[test]
fn the_first_total_is_not_below_what_is_told() {
    for (told, extra, last) in [(0, 5, 5), (5, 5, 5), (6, 5, 65_541), (65_530, 5, 65_541), (200_000, 3_392, 200_000)] {
        let mut dates = [0];
        assert_eq!(run(&packets(PULSE, &[extra]), told, &mut dates), Ok(Run { count: 1, last }), "{told}");
        assert_eq!(dates, [BEGIN + (last * 33 / 16) as i64], "{told}");
    }
}

#[test]
fn a_run_of_one_is_what_is_read() {
    for extra in [0, 1, 16, 65_535] {
        let bytes = packets(PULSE, &[extra]);
        let mut dates = [0];
        assert_eq!(run(&bytes, 0, &mut dates), Ok(Run { count: 1, last: extra }));
        assert_eq!(read(&bytes).map(|time| time.day * DAY as i64 + time.micro as i64), Ok(dates[0]));
    }
}

#[test]
fn an_empty_run_is_answered() {
    for told in [0, 65_536, 484_849, u64::MAX] {
        let mut dates = [-1];
        assert_eq!(run(&[], told, &mut []), Ok(Run { count: 0, last: told }));
        assert_eq!(run(&[], told, &mut dates), Ok(Run { count: 0, last: told }));
        assert_eq!(dates, [-1]);
    }
}

#[test]
fn a_refusal_leaves_the_dates() {
    let refused = |bytes: &[u8], told: u64, places: usize, error: Error| {
        let mut dates = [-1; 3];
        assert_eq!(run(bytes, told, &mut dates[..places]), Err(error), "{bytes:?} {told} {places}");
        assert_eq!(dates, [-1; 3]);
    };
    let three = packets(PULSE, &[0, 65_000, 65_000]);
    // another day, millisecond and microsecond of the second packet
    for at in [10, 11, 15, 17] {
        let mut differ = three.clone();
        differ[at] ^= 1;
        refused(&differ, 0, 3, Error::NOT_ONE_SECOND);
        // 3 of any packet before 16, and 1 before 3
        differ[22..26].copy_from_slice(&86_400_000u32.to_be_bytes());
        refused(&differ, u64::MAX, 0, Error::FIELD_OVER);
        refused(&differ[..29], u64::MAX, 0, Error::LENGTH_IS_NONE);
    }
    let mut over = packets(PULSE, &[0]);
    over[6..8].copy_from_slice(&1000u16.to_be_bytes());
    refused(&over, 0, 1, Error::FIELD_OVER);
    // the last total below a second is answered, and none above it
    let mut dates = [0];
    assert_eq!(run(&packets(PULSE, &[484_848]), 484_848, &mut dates), Ok(Run { count: 1, last: 484_848 }));
    refused(&packets(PULSE, &[484_849]), 484_848, 1, Error::NOT_ONE_SECOND);
    for told in [484_849, u64::MAX - 65_535, u64::MAX] {
        refused(&three, told, 3, Error::NOT_ONE_SECOND);
    }
    // the span's last microsecond; 7 of the last date, after 16 and before 13
    let end = Fields { day: 36524, millisecond: 86_399_999, microsecond: 999, extra: 0 };
    assert_eq!(run(&packets(end, &[0]), 0, &mut dates), Ok(Run { count: 1, last: 0 }));
    refused(&packets(end, &[0, 1]), 0, 0, Error::OUTSIDE_SPAN);
    refused(&packets(end, &[484_849]), 484_848, 0, Error::NOT_ONE_SECOND);
    refused(&packets(Fields { day: 65_535, ..PULSE }, &[0]), 0, 1, Error::OUTSIDE_SPAN);
    refused(&three, 0, 2, Error::OUTPUT_SHORTER);
}
