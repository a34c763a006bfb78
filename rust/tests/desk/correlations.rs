//! SBT ticks and GOCE counts.

use super::{correlation, DAY, LIST, NONE, SECOND};
use vrikshonem::*;

// GOCE's clock, exactly as fast as UTC, with its widest window.
const GOCE: GoceCorrelation =
    GoceCorrelation { obt0: 0, utc0: 0, offset: 0, gradient: 1_000_000_000, back: 1 << 47, ahead: (1 << 47) - 1 };

#[test]
fn a_window_has_two_ends() {
    let held = correlation(100, Utc::new(0, SECOND), 2, 5);
    // two ticks back are 7,813 microseconds, rounded down, and five ahead 19,531
    let (first, last) = (SECOND - 7813, SECOND + 19_531);
    let refused = Err(Error::NOT_IN_FORCE);
    for (tick, due) in [(97, refused), (98, Ok(Utc::new(0, first))), (105, Ok(Utc::new(0, last))), (106, refused)] {
        assert_eq!(held.date(Tick(tick), Utc::new(0, last), &LIST), due, "{tick}");
    }
    // the receipt too
    let answered = Ok(Utc::new(0, first));
    for (micro, due) in [(first - 1, refused), (first, answered), (last, answered), (last + 1, refused)] {
        assert_eq!(held.date(Tick(98), Utc::new(0, micro), &LIST), due, "{micro}");
    }
    assert_eq!(held.date(Tick(100), Utc::new(0, DAY + SECOND), &LIST), Err(Error::OUTSIDE_SPAN));
}

// 31 December 2016, 23:59:59; the day has a second 60, and 256 ticks are a second.
fn night() -> SbtCorrelation<Utc> {
    correlation(7, Utc::new(6209, DAY - SECOND), 2_000, 2_000)
}

// The same of counts, 1/65536 s later.
const NIGHT_COUNTS: GoceCorrelation = GoceCorrelation { utc0: (6209 * 86_400 + 86_399) * 65_536 + 1, ..GOCE };

#[test]
fn a_leap_second_counts() {
    // the window ends 7.8125 s after the reference, and one of these seconds is second 60
    let last = Utc::new(6210, 5_812_500);
    for (tick, time) in [
        (7, night().reference),
        (262, Utc::new(6209, DAY - 3907)),
        (263, Utc::new(6209, DAY)),
        (518, Utc::new(6209, DAY + SECOND - 3907)),
        (519, Utc::new(6210, 0)),
        (2007, last),
    ] {
        assert_eq!(night().date(Tick(tick), last, &LIST), Ok(time), "{tick}");
        assert_eq!(night().tick_of(time, &LIST), Ok(Tick(tick)), "{tick}");
    }
    assert_eq!(night().date(Tick(7), Utc::new(6209, DAY + 1), &LIST), Ok(night().reference));
    assert_eq!(night().date(Tick(7), Utc::new(6210, 5_812_501), &LIST), Err(Error::NOT_IN_FORCE));
    assert_eq!(night().tick_of(Utc::new(6210, 5_812_501), &LIST), Err(Error::NOT_IN_FORCE));
    assert_eq!(NIGHT_COUNTS.date(65_536, last, &LIST), Ok(Utc::new(6209, DAY + 15)));
    assert_eq!(NIGHT_COUNTS.date(2 * 65_536 - 1, last, &LIST), Ok(Utc::new(6210, 0)));
    assert_eq!(NIGHT_COUNTS.count_of(Utc::new(6209, DAY + 15), &LIST), Ok(65_536));
}

#[test]
fn a_result_is_not_later_than_its_receipt() {
    // a microsecond before the result the packet was not yet sent
    let held = correlation(7, Tai::new(0, DAY - 3906), 0, 1);
    assert_eq!(held.date(Tick(8), Tai::new(1, 0), &LIST), Ok(Tai::new(1, 0)));
    assert_eq!(held.date(Tick(8), Tai::new(0, DAY - 1), &LIST), Err(Error::RESULT_LATER));
    let held = correlation(7, Gps::new(0, 0), 0, 1);
    assert_eq!(held.date(Tick(8), Gps::new(0, 3906), &LIST), Ok(Gps::new(0, 3906)));
    assert_eq!(held.date(Tick(8), Gps::new(0, 3905), &LIST), Err(Error::RESULT_LATER));
    // past the span's end no receipt is as late, and 11 is left before its first day
    let held = correlation(7, Gps::new(36524, DAY - 1), 0, 1);
    assert_eq!(held.date(Tick(8), held.reference, &LIST), Err(Error::RESULT_LATER));
    let held = correlation(7, Gps::new(Gps::FIRST_DAY, 0), 1, 0);
    assert_eq!(held.date(Tick(6), held.reference, &LIST), Err(Error::RESULT_OUTSIDE));
    // into second 60, within it and out of it: the microsecond before midnight is in second 60
    for (tick, time, before) in [
        (263, Utc::new(6209, DAY), Utc::new(6209, DAY - 1)),
        (518, Utc::new(6209, DAY + SECOND - 3907), Utc::new(6209, DAY + SECOND - 3908)),
        (519, Utc::new(6210, 0), Utc::new(6209, DAY + SECOND - 1)),
    ] {
        assert_eq!(night().date(Tick(tick), time, &LIST), Ok(time), "{tick}");
        assert_eq!(night().date(Tick(tick), before, &LIST), Err(Error::RESULT_LATER), "{tick}");
    }
    for (obt, time, before) in [
        (65_535, Utc::new(6209, DAY), Utc::new(6209, DAY - 1)),
        (65_536, Utc::new(6209, DAY + 15), Utc::new(6209, DAY + 14)),
        (2 * 65_536 - 1, Utc::new(6210, 0), Utc::new(6209, DAY + SECOND - 1)),
    ] {
        assert_eq!(NIGHT_COUNTS.date(obt, time, &LIST), Ok(time), "{obt}");
        assert_eq!(NIGHT_COUNTS.date(obt, before, &LIST), Err(Error::RESULT_LATER), "{obt}");
    }
    // 8 stands before it, of the tick and of the receipt
    assert_eq!(night().date(Tick(2008), night().reference, &LIST), Err(Error::NOT_IN_FORCE));
    assert_eq!(night().date(Tick(263), Utc::new(6209, 0), &LIST), Err(Error::NOT_IN_FORCE));
}

#[test]
fn a_utc_correlation_refuses_by_the_list() {
    let received = Utc::new(6209, DAY - 1);
    assert_eq!(night().date(Tick(7), received, &NONE), Err(Error::LIST_NOT_ACCEPTED));
    assert_eq!(night().tick_of(Tai::new(6209, 0), &NONE), Err(Error::LIST_NOT_ACCEPTED));
    assert_eq!(GOCE.count_of(Gps::new(0, 0), &NONE), Err(Error::LIST_NOT_ACCEPTED));
    // without the last step, to 31 December 2016: that day has no second 60
    let shorter = LeapList { days: &LIST.days[..27], offsets: &LIST.offsets[..27], last: 6209 };
    assert_eq!(night().date(Tick(262), received, &shorter), Ok(Utc::new(6209, DAY - 3907)));
    // past the list's end a result is later than any receipt that is known
    assert_eq!(night().date(Tick(263), received, &shorter), Err(Error::RESULT_LATER));
    assert_eq!(night().date(Tick(263), Utc::new(6210, 0), &shorter), Err(Error::LIST_EXPIRED));
    assert_eq!(night().date(Tick(262), Utc::new(6209, DAY), &shorter), Err(Error::SECOND_LACKING));
    // of the result 9 comes before the 10 of its receipt
    assert_eq!(night().date(Tick(263), Utc::new(6209, DAY), &shorter), Err(Error::LIST_EXPIRED));
    assert_eq!(night().tick_of(Utc::new(6209, DAY), &shorter), Err(Error::SECOND_LACKING));
    assert_eq!(night().tick_of(Utc::new(6210, 0), &shorter), Err(Error::LIST_EXPIRED));
    // an expired reference: a tick outside the window is 8 at once, and a time of another scale is 12 after the reference's 9
    let later = correlation(7, Utc::new(6210, 0), 2, 2);
    assert_eq!(later.date(Tick(10), later.reference, &shorter), Err(Error::NOT_IN_FORCE));
    assert_eq!(later.date(Tick(7), Utc::new(0, 0), &shorter), Err(Error::LIST_EXPIRED));
    assert_eq!(later.tick_of(Tai::new(6210, 0), &shorter), Err(Error::LIST_EXPIRED));
    assert_eq!(later.tick_of(Tai::new(6210, 0), &LIST), Err(Error::NO_IMAGE));
}

#[test]
fn other_correlations_look_at_no_list() {
    let held = correlation(7, Tai::new(6209, DAY - SECOND), 2_000, 2_000);
    for list in [LIST, NONE] {
        assert_eq!(held.date(Tick(263), Tai::new(6210, SECOND), &list), Ok(Tai::new(6210, 0)));
        assert_eq!(held.date(Tick(263), held.reference, &list), Err(Error::RESULT_LATER));
        assert_eq!(held.tick_of(Tai::new(6210, 0), &list), Ok(Tick(263)));
        assert_eq!(held.tick_of(Utc::new(6209, DAY), &list), Err(Error::NO_IMAGE));
        let held = correlation(7, Gps::new(20_000, 0), 0, 2);
        assert_eq!(held.date(Tick(8), Gps::new(20_000, 5000), &list), Ok(Gps::new(20_000, 3906)));
    }
    assert_eq!(held.date(Tick(7), Tai::new(6209, DAY), &LIST), Err(Error::OUTSIDE_SPAN));
}

#[test]
fn goce_counts_are_dated() {
    // in 2024, after all of them
    let received = Utc::new(9131, 0);
    assert_eq!(GOCE.date(1, received, &LIST), Ok(Utc::new(0, 15)));
    // a count before the reference, past the wrap, is rounded towards the past
    assert_eq!(GOCE.date((1 << 48) - 1, received, &LIST), Ok(Utc::new(-1, DAY - 16)));
    // one rounding: 45.8 and 45.8 are 91
    assert_eq!(GoceCorrelation { utc0: 3, ..GOCE }.date(3, received, &LIST), Ok(Utc::new(0, 91)));
    // the offset has a sign, and the rate is of the difference alone
    let held = GoceCorrelation { obt0: 65_536, utc0: 7 * 65_536, offset: -65_536, gradient: 1_001_000_000, ..GOCE };
    assert_eq!(held.date(2 * 65_536, received, &LIST), Ok(Utc::new(0, 7_001_000)));
    for count in [0, 1, (1 << 45) - 1, (1 << 48) - 1] {
        let time = GOCE.date(count, received, &LIST);
        assert_eq!(time.and_then(|time| GOCE.count_of(time, &LIST)), Ok(count), "{count}");
    }
    assert_eq!(GOCE.count_of(Utc::new(0, 14), &LIST), Ok(0));
    assert_eq!(GOCE.count_of(Handed::Decimal(-0.5, Scale::Utc), &LIST), Ok((1 << 48) - 43_200 * 65_536));
}

#[test]
fn goce_refuses() {
    let received = Utc::new(0, 0);
    assert_eq!(GOCE.date(1 << 48, Utc::new(0, DAY), &LIST), Err(Error::FIELD_OVER));
    assert_eq!(GoceCorrelation { obt0: 1 << 48, ..GOCE }.date(0, Utc::new(0, DAY), &LIST), Err(Error::CORRELATION_NOT_ACCEPTED));
    assert_eq!(GoceCorrelation { offset: -5_662_310_401, ..GOCE }.count_of(received, &LIST), Err(Error::CORRELATION_NOT_ACCEPTED));
    assert_eq!(GOCE.date(0, Utc::new(0, DAY + SECOND), &LIST), Err(Error::OUTSIDE_SPAN));
    assert_eq!(GOCE.date(0, Utc::new(0, DAY), &LIST), Err(Error::SECOND_LACKING));
    let narrow = GoceCorrelation { back: 0, ahead: 1, ..GOCE };
    assert_eq!(narrow.date(1, Utc::new(0, 15), &LIST), Ok(Utc::new(0, 15)));
    assert_eq!(narrow.date(2, received, &LIST), Err(Error::NOT_IN_FORCE));
    assert_eq!(narrow.date(1, Utc::new(0, 16), &LIST), Err(Error::NOT_IN_FORCE));
    assert_eq!(narrow.count_of(Utc::new(0, 16), &LIST), Err(Error::NOT_IN_FORCE));
    // half a wrap is more than 68 years: UTC begins in 1972, and the list ends with 2024
    assert_eq!(GOCE.date(1 << 47, received, &LIST), Err(Error::RESULT_OUTSIDE));
    assert_eq!(GOCE.date((1 << 47) - 1, Utc::new(9131, DAY - 1), &LIST), Err(Error::RESULT_LATER));
    assert_eq!(GOCE.date((1 << 47) - 1, Utc::new(9131, DAY), &LIST), Err(Error::LIST_EXPIRED));
    assert_eq!(GOCE.count_of(Handed::Decimal(f64::NAN, Scale::Utc), &LIST), Err(Error::DECIMAL_NOT_FINITE));
    assert_eq!(GOCE.count_of(Utc::new(36525, 0), &LIST), Err(Error::OUTSIDE_SPAN));
    // of a second that its day lacks, and of another scale, 8 is not judged
    assert_eq!(narrow.count_of(Utc::new(1, DAY), &LIST), Err(Error::SECOND_LACKING));
    assert_eq!(narrow.count_of(Gps::new(1, 0), &LIST), Err(Error::NO_IMAGE));
}
