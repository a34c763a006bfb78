//! The paper's marked cases, and each refusal, through the crate.

#[path = "desk/correlations.rs"]
mod correlations;
#[path = "desk/marks.rs"]
mod marks;
#[path = "desk/runs.rs"]
mod runs;
#[path = "desk/season.rs"]
mod season_file;

use vrikshonem::*;

const LIST: LeapList<'static> = LeapList::PUBLISHED;
const DAY: u64 = 86_400_000_000;
const SECOND: u64 = 1_000_000;
const NONE: LeapList<'static> = LeapList { days: &[], offsets: &[], last: 9131 };

fn correlation<T>(tick: u32, reference: T, back: u64, ahead: u64) -> SbtCorrelation<T> {
    SbtCorrelation { tick: Tick(tick), reference, period: 3_906_250_000, back, ahead }
}

#[test]
fn marked_cases() {
    // 1
    assert_eq!(Utc::new(-7300, 0).to_tai(&LIST), Ok(Tai::new(-7300, 19 * SECOND)));
    assert_eq!(Utc::new(-7300, 0).to_gps(&LIST), Ok(Gps::new(-7300, 0)));
    // 2, 3
    assert_eq!(Utc::new(6209, DAY).to_tai(&LIST), Ok(Tai::new(6210, 36 * SECOND)));
    assert_eq!(Utc::new(6210, 0).to_tai(&LIST), Ok(Tai::new(6210, 37 * SECOND)));
    assert_eq!(Utc::new(6210, 0).to_tai(&LeapList { last: 6209, ..LIST }), Err(Error::LIST_EXPIRED));
    // 4, 5
    assert_eq!(cuc::read(&[0, 0, 0, 1, 0, 1]), Ok(Gps::new(-7300, 1_000_015)));
    let mut bytes = [0; 6];
    for (seconds, day) in [(3_786_479_999u32, Some(36524)), (3_786_480_000, None)] {
        assert_eq!(cuc::write_fields(cuc::Fields { seconds, fraction: 0 }, &mut bytes), Ok(6));
        match day {
            Some(day) => assert_eq!(cuc::read(&bytes), Ok(Gps::new(day, DAY - SECOND))),
            None => assert_eq!(cuc::read(&bytes), Err(Error::OUTSIDE_SPAN)),
        }
    }
    // 6
    let mut bytes = [0; 8];
    let fields = proteus::Fields { week: 1, h3: true, second: 604_799, fraction: 0 };
    assert_eq!(proteus::write_fields(fields, &mut bytes), Ok(8));
    assert_eq!(proteus::read_fields(&bytes), Ok(fields));
    let read = proteus::read(&bytes).map(|time| (time, time.mark));
    assert_eq!(read, Ok((Utc::new(-7287, DAY - SECOND), Mark::Proteus(true))));
    assert_eq!(proteus::write_fields(proteus::Fields { second: 604_800, ..fields }, &mut bytes), Err(Error::FIELD_OVER));
    bytes[1] = 2;
    assert_eq!(proteus::read(&bytes), Err(Error::MARKER_WRONG));
    // 7
    assert_eq!(siral::read(&[0, 0, 0, 0, 0, 0, 0, 0, 0, 16]), Ok(Tai::new(0, 33)));
    assert_eq!(siral::read(&[0, 0, 0, 0, 0, 0, 0, 0, 0, 1]), Ok(Tai::new(0, 2)));
    // 8
    let wrap = correlation(0xFFFF_FFFF, Tai::new(1, SECOND), 1, 1);
    assert_eq!(wrap.date(Tick(0), Tai::new(1, SECOND + 3906), &LIST), Ok(Tai::new(1, SECOND + 3906)));
    assert_eq!(wrap.date(Tick(0xFFFF_FFFE), wrap.reference, &LIST), Ok(Tai::new(1, SECOND - 3907)));
    // 9
    let narrow = correlation(7, Gps::new(0, 0), 0, 0);
    assert_eq!(narrow.date(Tick(7), narrow.reference, &LIST), Ok(narrow.reference));
    assert_eq!(narrow.date(Tick(8), narrow.reference, &LIST), Err(Error::NOT_IN_FORCE));
    // 10
    assert_eq!(Utc::from_decimal(-0.5), Ok(Utc::new(-1, 43_200_000_000)));
}

#[test]
fn every_refusal() {
    let mut out = [0xA5; 31];
    assert_eq!(sbt::read(&[]), Err(Error::LENGTH_IS_NONE));
    assert_eq!(obet::read(&[0x65, 0, 0, 0, 0, 0, 0, 0]), Err(Error::MARKER_WRONG));
    assert_eq!(goce::write(1 << 48, &mut out), Err(Error::FIELD_OVER));
    assert_eq!(text::read("31-FEB-2000 00:00:00", &LIST), Err(Error::FIELD_OVER));
    assert_eq!(season::read(&[0]), Err(Error::SEASON_BROKEN));
    assert_eq!(siral::run(&[0; 10], 484_849, &mut [0]), Err(Error::NOT_ONE_SECOND));
    assert_eq!(Gps::from_decimal(f64::INFINITY), Err(Error::DECIMAL_NOT_FINITE));
    assert!(!NONE.is_accepted());
    assert_eq!(Tai::new(0, 0).to_utc(&NONE), Err(Error::LIST_NOT_ACCEPTED));
    let mut slow = correlation(0, Tai::new(0, 0), 1, 1);
    slow.period = 3_906_500_001;
    assert_eq!(slow.date(Tick(0), slow.reference, &LIST), Err(Error::CORRELATION_NOT_ACCEPTED));
    assert_eq!(Gps::new(Gps::FIRST_DAY - 1, 0).to_tai(), Err(Error::OUTSIDE_SPAN));
    assert_eq!(Tai::new(0, Tai::BOUND).to_gps(), Err(Error::OUTSIDE_SPAN));
    assert_eq!(season::covering(&[0, 0], Tai::new(0, 0)), Err(Error::NO_ENTRY));
    assert_eq!(correlation(0, Tai::new(0, 0), 1, 1).tick_of(Tai::new(1, 0), &LIST), Err(Error::NOT_IN_FORCE));
    assert_eq!(correlation(0, Tai::new(0, 0), 1, 1).date(Tick(1), Tai::new(0, 0), &LIST), Err(Error::RESULT_LATER));
    assert_eq!(Tai::new(9133, 0).to_utc(&LIST), Err(Error::LIST_EXPIRED));
    assert_eq!(Utc::new(0, DAY).to_tai(&LIST), Err(Error::SECOND_LACKING));
    assert_eq!(Tai::new(Tai::FIRST_DAY, 0).to_utc(&LIST), Err(Error::RESULT_OUTSIDE));
    assert_eq!(Utc::new(6209, DAY).to_decimal(), Err(Error::NO_IMAGE));
    assert_eq!(cuc::write(Tai::new(0, 0), &mut out), Err(Error::NO_IMAGE));
    assert_eq!(cuc::write(Gps::new(0, 0), &mut out[..5]), Err(Error::OUTPUT_SHORTER));
    // a refusal leaves every byte
    assert_eq!(out, [0xA5; 31]);
}

#[test]
fn writers_leave_the_bytes_after_the_image() {
    let check = |name: &str, length: usize, write: &dyn Fn(&mut [u8]) -> Result<usize, Error>| {
        let mut out = [0xA5; 32];
        assert_eq!(write(&mut out), Ok(length), "{name}");
        assert_eq!(out[length..], [0xA5; 32][length..], "{name}");
        assert_ne!(out[..length], [0xA5; 32][..length], "{name}");
    };
    check("cuc", cuc::LENGTH, &|out| cuc::write(Gps::new(0, 15), out));
    check("goce", goce::LENGTH, &|out| goce::write(1, out));
    check("obet", obet::LENGTH, &|out| obet::write(1, out));
    check("proteus", proteus::LENGTH, &|out| proteus::write(Utc::new(0, 0), out));
    check("cryosat", cryosat::LENGTH, &|out| cryosat::write(Tai::new(1, 1), out));
    check("siral", siral::LENGTH, &|out| siral::write(Tai::new(1, 1), out));
    check("sbt", sbt::LENGTH, &|out| sbt::write(Tick(1), out));
    check("text", 24, &|out| text::write(Gps::new(0, 0), Form::Prefixed, &LIST, out));
}

#[test]
fn writings_read_back() {
    let mut out = [0; 10];
    // 15 microseconds is fraction 1, which reads 15
    assert_eq!(cuc::write(Gps::new(-7300, 15), &mut out), Ok(6));
    assert_eq!(out[..6], [0, 0, 0, 0, 0, 1]);
    assert_eq!(cuc::read_fields(&out[..6]), Ok(cuc::Fields { seconds: 0, fraction: 1 }));
    let time = Tai::new(36524, DAY - 1);
    assert_eq!(cryosat::write(time, &mut out), Ok(8));
    assert_eq!(cryosat::read(&out[..8]), Ok(time));
    let fields = cryosat::Fields { day: 36524, millisecond: 86_399_999, microsecond: 999 };
    assert_eq!(cryosat::read_fields(&out[..8]), Ok(fields));
    assert_eq!(cryosat::write_fields(fields, &mut out), Ok(8));
    assert_eq!(siral::write(time, &mut out), Ok(10));
    assert_eq!(siral::read(&out), Ok(time));
    let fields = siral::Fields { day: 0, millisecond: 1, microsecond: 2, extra: 65535 };
    assert_eq!(siral::write_fields(fields, &mut out), Ok(10));
    assert_eq!(siral::read_fields(&out), Ok(fields));
    assert_eq!(goce::write(0x0102_0304_0506, &mut out), Ok(6));
    assert_eq!(out[..6], [1, 2, 3, 4, 5, 6]);
    assert_eq!(goce::read(&out[..6]), Ok(0x0102_0304_0506));
    assert_eq!(obet::write(9, &mut out), Ok(8));
    assert_eq!(obet::read(&out[..8]), Ok(9));
    assert_eq!(sbt::write(Tick(0x8000_0001), &mut out), Ok(4));
    assert_eq!(sbt::read(&out[..4]), Ok(Tick(0x8000_0001)));
    let utc = Utc::new(0, 1);
    assert_eq!(utc.to_decimal().and_then(Utc::from_decimal), Ok(utc));
    let held = correlation(5, Utc::new(0, 0), 10, 10);
    let received = Utc::new(0, 20_000);
    assert_eq!(held.date(Tick(9), received, &LIST).and_then(|time| held.tick_of(time, &LIST)), Ok(Tick(9)));
}

#[test]
fn a_decimal_day_is_handed_in() {
    let mut out = [0; cryosat::LENGTH];
    assert_eq!(cryosat::write(Handed::Decimal(1.5, Scale::Tai), &mut out), Ok(8));
    assert_eq!(cryosat::read(&out), Ok(Tai::new(1, 43_200_000_000)));
    assert_eq!(cryosat::write(Handed::Decimal(f64::NAN, Scale::Tai), &mut out), Err(Error::DECIMAL_NOT_FINITE));
    assert_eq!(Handed::Decimal(f64::NAN, Scale::Tai).to_decimal(), Err(Error::DECIMAL_NOT_FINITE));
    let read = text::read("TAI=02-JAN-2000 12:00:00", &LIST).map(Handed::from);
    assert_eq!(read.and_then(Handed::to_decimal), Ok(1.5));
}

#[test]
fn a_list_ends() {
    assert!(text::read("31-DEC-2024 23:59:59", &LIST).is_ok());
    assert_eq!(text::read("01-JAN-2025 00:00:00", &LIST), Err(Error::LIST_EXPIRED));
    assert_eq!(text::string(Utc::new(9132, 0), Form::Plain, &LIST), Err(Error::LIST_EXPIRED));
    let longer = LeapList { last: 9132, ..LIST };
    assert_eq!(text::string(Utc::new(9132, 0), Form::Plain, &longer).as_deref(), Ok("01-JAN-2025 00:00:00"));
}

#[test]
fn texts_of_each_form() {
    let time = Utc::new(6209, DAY);
    for (form, text) in [
        (Form::Plain, "31-DEC-2016 23:59:60"),
        (Form::Prefixed, "UTC=31-DEC-2016 23:59:60"),
        (Form::Micros, "31-DEC-2016 23:59:60.000000"),
        (Form::PrefixedMicros, "UTC=31-DEC-2016 23:59:60.000000"),
    ] {
        assert_eq!(text::string(time, form, &LIST).as_deref(), Ok(text));
        assert_eq!(text::read(text, &LIST), Ok(Time::Utc(time)));
    }
    assert_eq!(text::read("GPS=01-JAN-2000 00:00:00", &LIST), Ok(Time::Gps(Gps::new(0, 0))));
    assert_eq!(text::read("TAI=01-JAN-2000 00:00:00", &LIST), Ok(Time::Tai(Tai::new(0, 0))));
    assert_eq!(text::string(Gps::new(0, 0), Form::Plain, &LIST), Err(Error::NO_IMAGE));
}

#[test]
fn an_error_says_its_number_and_words() {
    let refused = correlation(7, Gps::new(0, 0), 0, 0).date(Tick(8), Gps::new(0, 0), &LIST).unwrap_err();
    let error: Box<dyn std::error::Error> = Box::new(refused);
    assert_eq!(error.to_string(), "refused 8: correlation not in force");
    assert_eq!(refused.words(), "correlation not in force");
}

// The library keeps nothing between calls, so any number of threads may call at once.
#[test]
fn threads() {
    std::thread::scope(|scope| {
        for start in 0..4u64 {
            scope.spawn(move || {
                for count in (start..400).step_by(4) {
                    let mut out = [0; 6];
                    assert_eq!(goce::write(count, &mut out), Ok(6));
                    assert_eq!(goce::read(&out), Ok(count));
                }
            });
        }
    });
}
