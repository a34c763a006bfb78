//! Where a time came from.

use super::{correlation, DAY, LIST, SECOND};
use std::cmp::Ordering;
use std::collections::hash_map::DefaultHasher;
use std::collections::HashSet;
use std::hash::{Hash, Hasher};
use vrikshonem::*;

const MARKS: [Mark; 6] = [
    Mark::Plain,
    Mark::Proteus(false),
    Mark::Proteus(true),
    Mark::Correlated(0),
    Mark::Correlated(1),
    Mark::Correlated(u64::MAX),
];

fn hashed(value: impl Hash) -> u64 {
    let mut state = DefaultHasher::new();
    value.hash(&mut state);
    state.finish()
}

fn is_no_part_of_the_time<T: Scaled + Ord + Hash + std::fmt::Debug>() {
    for (one, other) in MARKS.iter().flat_map(|&one| MARKS.map(|other| (one, other))) {
        let (left, right) = (T::at(0, 2).with_mark(one), T::at(0, 2).with_mark(other));
        assert_eq!((left.mark(), right.mark()), (one, other));
        assert_eq!((left.day(), left.micro()), (0, 2));
        assert_eq!(left, right);
        assert_eq!((left.cmp(&right), left.partial_cmp(&right)), (Ordering::Equal, Some(Ordering::Equal)));
        assert_eq!(hashed(left), hashed(right));
        assert_eq!(HashSet::from([left, right]).len(), 1);
        // another day or microsecond is another time, whatever the marks
        for later in [T::at(0, 3), T::at(1, 2), T::at(1, 1)].map(|time| time.with_mark(other)) {
            assert_ne!(left, later);
            assert_eq!((left.cmp(&later), later.partial_cmp(&left)), (Ordering::Less, Some(Ordering::Greater)));
            assert_ne!(hashed(left), hashed(later));
        }
    }
}

#[test]
fn a_mark_is_no_part_of_the_time() {
    is_no_part_of_the_time::<Tai>();
    is_no_part_of_the_time::<Utc>();
    is_no_part_of_the_time::<Gps>();
    let (plain, marked) = (Utc::new(0, 1), Utc::new(0, 1).with_mark(Mark::Correlated(7)));
    assert_eq!((Time::from(plain), Handed::from(plain)), (Time::from(marked), Handed::from(marked)));
    assert_eq!(hashed(Time::from(plain)), hashed(Time::from(marked)));
    assert_eq!(correlation(7, plain, 1, 1), correlation(7, marked, 1, 1));
    // the marks themselves are told apart
    assert_eq!(HashSet::from(MARKS).len(), MARKS.len());
}

#[test]
fn what_is_built_is_plain() {
    assert_eq!(Mark::default(), Mark::Plain);
    assert_eq!(Tai::new(0, 0).mark, Mark::Plain);
    assert_eq!(Utc::new(0, 0).mark, Mark::Plain);
    assert_eq!(Gps::new(0, 0).mark, Mark::Plain);
    assert_eq!(Utc::at(0, 0).mark(), Mark::Plain);
}

// The time's mark and that of its change, there and back.
fn kept<T: Scaled, U: Scaled>(time: T) -> Result<[Mark; 3], Error> {
    let there: U = change(time, &LIST)?;
    let back: T = change(there, &LIST)?;
    assert_eq!((back.day(), back.micro()), (time.day(), time.micro()));
    Ok([time.mark(), there.mark(), back.mark()])
}

#[test]
fn changes_keep_the_mark() {
    for mark in MARKS {
        let tai = Tai::new(6210, 36 * SECOND).with_mark(mark);
        let utc = Utc::new(6209, DAY).with_mark(mark);
        let gps = Gps::new(6210, 17 * SECOND).with_mark(mark);
        assert_eq!(tai.to_utc(&LIST).map(|time| (time, time.mark)), Ok((utc, mark)));
        assert_eq!(tai.to_gps().map(|time| (time, time.mark)), Ok((gps, mark)));
        assert_eq!(utc.to_tai(&LIST).map(|time| (time, time.mark)), Ok((tai, mark)));
        assert_eq!(utc.to_gps(&LIST).map(|time| (time, time.mark)), Ok((gps, mark)));
        assert_eq!(gps.to_tai().map(|time| (time, time.mark)), Ok((tai, mark)));
        assert_eq!(gps.to_utc(&LIST).map(|time| (time, time.mark)), Ok((utc, mark)));
        for trip in [kept::<Tai, Utc>(tai), kept::<Utc, Gps>(utc), kept::<Gps, Tai>(gps), kept::<Utc, Utc>(utc)] {
            assert_eq!(trip, Ok([mark; 3]));
        }
    }
    let noon: Result<Tai, Error> = change(Handed::Decimal(6209.5, Scale::Utc), &LIST);
    assert_eq!(noon.map(|time| time.mark), Ok(Mark::Plain));
}

#[test]
fn proteus_keeps_its_bit() {
    let time = Utc::new(6209, 500_000);
    let mut out = [0; proteus::LENGTH];
    for mark in MARKS {
        assert_eq!(proteus::write(time.with_mark(mark), &mut out), Ok(8));
        // a reference of 1 is no H3
        let h3 = mark == Mark::Proteus(true);
        assert_eq!(proteus::read_fields(&out).map(|fields| fields.h3), Ok(h3), "{mark:?}");
        assert_eq!(proteus::read(&out).map(|read| (read, read.mark)), Ok((time, Mark::Proteus(h3))), "{mark:?}");
    }
    assert_eq!(proteus::write(Handed::Decimal(6209.5, Scale::Utc), &mut out), Ok(8));
    assert_eq!(proteus::read(&out).map(|read| read.mark), Ok(Mark::Proteus(false)));
}

#[test]
fn dates_are_marked_with_the_reference() {
    // neither the reference's own mark nor the receipt's is looked at
    for mark in MARKS {
        let held = correlation(0xFFFF_FFFF, Utc::new(6209, 0).with_mark(mark), 1, 2);
        for tick in [Tick(0xFFFF_FFFE), held.tick, Tick(1)] {
            let dated = held.date(tick, Utc::new(6209, 7812).with_mark(mark), &LIST);
            assert_eq!(dated.map(|time| time.mark), Ok(Mark::Correlated(0xFFFF_FFFF)), "{tick:?}");
        }
    }
    let tai = correlation(0, Tai::new(0, 0), 0, 9);
    assert_eq!(tai.date(Tick(9), Tai::new(0, 35_156), &LIST).map(|time| time.mark), Ok(Mark::Correlated(0)));
    let gps = correlation(5, Gps::new(0, 0), 0, 9);
    assert_eq!(gps.date(Tick(9), Gps::new(0, 35_156), &LIST).map(|time| time.mark), Ok(Mark::Correlated(5)));
    let obt0 = (1 << 48) - 1;
    let goce = GoceCorrelation { obt0, utc0: 65_536, offset: 0, gradient: 1_000_000_000, back: 1, ahead: 9 };
    for obt in [obt0 - 1, obt0, 8] {
        let dated = goce.date(obt, Utc::new(0, SECOND + 137), &LIST);
        assert_eq!(dated.map(|time| time.mark), Ok(Mark::Correlated(obt0)), "{obt}");
    }
}

#[test]
fn other_readers_give_plain_times() {
    let plain = Ok(Mark::Plain);
    assert_eq!(cuc::read(&[0, 0, 0, 1, 0, 1]).map(|time| time.mark), plain);
    assert_eq!(cryosat::read(&[0, 1, 0, 0, 0, 1, 0, 1]).map(|time| time.mark), plain);
    assert_eq!(siral::read(&[0, 1, 0, 0, 0, 1, 0, 1, 0, 1]).map(|time| time.mark), plain);
    assert_eq!(Tai::from_decimal(0.5).map(|time| time.mark), plain);
    assert_eq!(Utc::from_decimal(0.5).map(|time| time.mark), plain);
    assert_eq!(Gps::from_decimal(0.5).map(|time| time.mark), plain);
    for text in ["TAI=01-JAN-2000 00:00:00", "31-DEC-2016 23:59:60", "GPS=01-JAN-2000 00:00:00.000001"] {
        assert_eq!(text::read(text, &LIST).map(Time::mark), plain, "{text}");
    }
}

// What each function but Proteus' writer makes of a time in each scale: the bytes, or the number.
fn written(mark: Mark) -> Vec<Vec<u8>> {
    let (tai, utc, gps) = (Tai::new(1, 1), Utc::new(1, 1), Gps::new(1, 1));
    let (tai, utc, gps) = (tai.with_mark(mark), utc.with_mark(mark), gps.with_mark(mark));
    let image = |write: &dyn Fn(&mut [u8]) -> Result<usize, Error>| {
        let mut out = [0; 31];
        let length = write(&mut out).expect("it has an image");
        out[..length].to_vec()
    };
    let goce = GoceCorrelation { obt0: 0, utc0: 0, offset: 0, gradient: 1_000_000_000, back: 0, ahead: 1 << 40 };
    let tick = correlation(5, Utc::new(1, 0), 10, 10).tick_of(utc, &LIST).expect("it is in force");
    vec![
        image(&|out| cuc::write(gps, out)),
        image(&|out| cryosat::write(tai, out)),
        image(&|out| siral::write(tai, out)),
        image(&|out| text::write(utc, Form::Micros, &LIST, out)),
        gps.to_decimal().expect("it has an image").to_be_bytes().to_vec(),
        tick.0.to_be_bytes().to_vec(),
        goce.count_of(utc, &LIST).expect("it is in force").to_be_bytes().to_vec(),
    ]
}

#[test]
fn other_writers_do_not_look_at_the_mark() {
    for mark in MARKS {
        assert_eq!(written(mark), written(Mark::Plain), "{mark:?}");
    }
}
