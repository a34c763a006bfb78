//! The season's file.

use super::{correlation, DAY};
use vrikshonem::*;

// Two ticks back are 7,813 microseconds and five ahead 19,531, so that the next one may begin 27,345 microseconds later.
const APART: u64 = 27_345;

fn season(count: u64, apart: u64) -> impl Iterator<Item = SbtCorrelation<Tai>> {
    (0..count).map(move |i| correlation(i as u32, Tai::new(-1, i * apart), 2, 5))
}

#[test]
fn what_is_written_reads_back() {
    for count in [0, 1, 2, 511, 512] {
        let file = season::bytes(season(count, APART)).expect("it is accepted");
        assert_eq!(file.len(), 2 + 48 * count as usize);
        let entries = season::read(&file).expect("it is accepted");
        assert!(entries.iter().map(|entry| entry.correlation).eq(season(count, APART)), "{count}");
        assert_eq!(season::bytes(entries.iter().map(|entry| entry.correlation)), Ok(file));
    }
    assert_eq!(season::bytes([]), Ok(vec![0, 0]));
    assert_eq!(season::LENGTH, 2 + 48 * 512);
}

#[test]
fn the_question_gives_the_one_entry() {
    let file = season::bytes(season(3, APART)).expect("it is accepted");
    let entries = season::read(&file).expect("it is accepted");
    let at = |micro: i64| Tai::new(micro.div_euclid(DAY as i64), micro.rem_euclid(DAY as i64) as u64);
    assert_eq!(entries[0].cover(), season::Cover { first: -(DAY as i64) - 7813, last: -(DAY as i64) + 19_531 });
    for entry in &entries {
        for receipt in [entry.first, entry.last] {
            assert_eq!(season::covering(&file, at(receipt)), Ok(entry.cover()));
        }
    }
    assert_eq!(season::covering(&file, at(entries[0].first - 1)), Err(Error::NO_ENTRY));
    assert_eq!(season::covering(&file, at(entries[2].last + 1)), Err(Error::NO_ENTRY));
    // the contents alone: a body that is none changes nothing
    let mut damaged = file.clone();
    damaged[62..].fill(0xFF);
    assert_eq!(season::covering(&damaged, at(0)), season::covering(&file, at(0)));
    assert_eq!(season::covering(&damaged, at(entries[1].last)), Ok(entries[1].cover()));
    assert_eq!(season::read(&damaged), Err(Error::SEASON_BROKEN));
}

#[test]
fn rules_are_kept() {
    let broken = Err(Error::SEASON_BROKEN);
    // a cover that touches the next
    assert_eq!(season::bytes(season(2, APART - 1)), broken);
    assert_eq!(season::bytes(season(513, APART)), broken);
    let held = correlation(0, Tai::new(0, 0), 1, 1);
    for wrong in [
        SbtCorrelation { period: 3_906_500_001, ..held },
        SbtCorrelation { period: u64::MAX, ..held },
        SbtCorrelation { back: (1 << 31) + 1, ..held },
        SbtCorrelation { ahead: u64::MAX, ..held },
        SbtCorrelation { reference: Tai::new(0, DAY), ..held },
        SbtCorrelation { reference: Tai::new(36525, 0), ..held },
    ] {
        assert_eq!(season::bytes([wrong]), broken, "{wrong:?}");
    }
    let file = season::bytes(season(2, APART)).expect("it is accepted");
    // the count, the contents and the first reference
    for at in (0..42).chain(46..54) {
        let mut damaged = file.clone();
        damaged[at] ^= 1;
        assert_eq!(season::read(&damaged), Err(Error::SEASON_BROKEN), "{at}");
    }
    assert_eq!(season::read(&file[..97]), Err(Error::SEASON_BROKEN));
    // 14 before 7, and 7 before 15
    assert_eq!(season::covering(&[0], Tai::new(36525, 0)), Err(Error::SEASON_BROKEN));
    assert_eq!(season::covering(&[0, 0], Tai::new(36525, 0)), Err(Error::OUTSIDE_SPAN));
    // a refusal leaves every byte
    let mut out = [0xA5; 49];
    assert_eq!(season::write([held], &mut out), Err(Error::OUTPUT_SHORTER));
    assert_eq!(out, [0xA5; 49]);
}
