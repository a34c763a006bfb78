//! What the examples must print, by the independent program: dated FILE

#[allow(dead_code)]
#[path = "../independent/mod.rs"]
mod independent;

use independent::correlation::Correlation;
use independent::layouts::{cryosat, cuc, goce, number, proteus, sbt, siral};
use independent::leap::{change, List};
use independent::time::{Handed, Moment, Record, Scale};
use independent::{text, Number};

// January and July firsts of document 01, as days from 1 January 2000.
const JANUARY: [i64; 17] =
    [1972, 1973, 1974, 1975, 1976, 1977, 1978, 1979, 1980, 1988, 1990, 1991, 1996, 1999, 2006, 2009, 2017];
const JULY: [i64; 11] = [1972, 1981, 1982, 1983, 1985, 1992, 1993, 1994, 1997, 2012, 2015];

const NAMES: [&str; 7] = ["?", "CUC", "Proteus", "CryoSat", "SIRAL", "SBT", "GOCE"];

/// The words of a refusal: in the one list after its number, place and name.
fn words_of(refusal: Number) -> String {
    let refusal = refusal.to_string();
    let line = include_str!("../../refusals.txt").lines().find(|line| line.split_whitespace().next() == Some(&refusal));
    let columns = line.expect("the refusal is listed").split_whitespace().skip(3);
    columns.take_while(|column| !column.starts_with('#')).collect::<Vec<_>>().join(" ")
}

fn day_of(year: i64, month: u64) -> i64 {
    independent::calendar::day_of(&independent::calendar::Date { day: 1, month, year }).expect("a date")
}

fn dated(layout: u8, time: &[u8], receipt: Moment, list: &List) -> Result<Record, Number> {
    let mut ticks = Correlation {
        tick: 0xFFFF_F000,
        scale: Scale::Utc,
        reference: Moment { day: 640, micro: 36_000_000_000 },
        period: 3_906_250_000,
        back: 86_400 * 256,
        ahead: 30 * 86_400 * 256,
    };
    let mut counts = independent::goce::Correlation {
        obt0: 0xFFFF_FFFF_0000,
        utc0: (3363 * 86_400 + 57_600) * 65_536,
        offset: -16_384,
        gradient: 1_000_000_021,
        back: 86_400 * 65_536,
        ahead: 30 * 86_400 * 65_536,
    };
    // the newer correlations, of 31 December 2016
    if receipt.day >= 6209 {
        let reference = Moment { day: 6209, micro: 86_399_000_000 };
        ticks = Correlation { tick: 7, reference, back: 2000, ahead: 2000, ..ticks };
        let (utc0, window) = ((6209 * 86_400 + 86_399) * 65_536, 8 * 65_536);
        counts = independent::goce::Correlation { obt0: 7, utc0, offset: 1, gradient: 1_000_000_000, back: window, ahead: window };
    }
    match layout {
        1 => cuc::read(time),
        2 => proteus::read(time),
        3 => cryosat::read(time),
        4 => siral::read(time),
        5 => ticks.date(sbt::read(time)? as u32, receipt, list),
        _ => counts.date(goce::read(time)?, receipt, list),
    }
}

fn main() {
    let file = std::env::args().nth(1).expect("usage: dated FILE");
    let mut days: Vec<i64> = JANUARY.iter().map(|&year| day_of(year, 1)).chain(JULY.iter().map(|&year| day_of(year, 7))).collect();
    days.sort();
    let offsets: Vec<u64> = (10..38).collect();
    let list = List { days: &days, offsets: &offsets, last: 9131 };
    for (k, packet) in std::fs::read(file).expect("the packets").chunks(24).enumerate() {
        let (layout, count) = (packet[0], packet[1] as usize);
        if !(1..=6).contains(&layout) || count > 10 {
            println!("{:2} ?       not a packet", k + 1);
            continue;
        }
        let receipt = Moment { day: i64::from(number(&packet[12..16]) as i32), micro: number(&packet[16..]) };
        let line = dated(layout, &packet[2..2 + count], receipt, &list)
            .and_then(|record| change(Handed::Record(record), Scale::Utc, &list))
            .and_then(|utc| text::write(Handed::Record(utc), 31, &list));
        let said = match line {
            Ok(text) => String::from_utf8(text).expect("letters"),
            Err(refusal) => format!("refused {refusal}: {}", words_of(refusal)),
        };
        println!("{:2} {:7} {said}", k + 1, NAMES[layout as usize]);
    }
}
