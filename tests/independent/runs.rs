//! SIRAL later in the second: a run of packets, dated together, from document 02's seventh request.

use super::layouts::siral;
use super::time::{moment_at, Scale, DAY};
use super::Number;

const PACKET: usize = 10;
/// The extra counter begins again after so many units.
const ROLL: u128 = 65_536;
/// So many units are 999,999 microseconds; one more is past the second.
const MOST: u128 = 484_848;

pub struct Run {
    pub dates: Vec<i64>,
    /// The last packet's total, or what was told where there is none.
    pub last: u64,
}

/// The least number not below the one before that has this extra counter: it stands in the same roll, or in the next.
fn total(before: u128, extra: u128) -> u128 {
    let roll = before / ROLL * ROLL;
    [roll + extra, roll + ROLL + extra].into_iter().find(|&total| total >= before).expect("the next roll is not below")
}

/// Microseconds since day 0: the whole part of the three fields and 33/16 for each unit.
fn date([day, milli, micro, _]: [u64; 4], total: u128) -> i128 {
    let fields = i128::from(day) * DAY + i128::from(milli) * 1000 + i128::from(micro);
    (fields * 16 + total as i128 * 33) / 16
}

/// 1, 3, 16, 7 in this order, or the run.
pub fn dated(bytes: &[u8], told: u64) -> Result<Run, Number> {
    if bytes.len() % PACKET != 0 {
        return Err(1);
    }
    let packets: Vec<[u64; 4]> = bytes.chunks(PACKET).map(siral::split).collect::<Result<_, _>>()?;
    let mut last = u128::from(told);
    let mut totals = Vec::new();
    for packet in &packets {
        last = total(last, packet[3].into());
        totals.push(last);
    }
    let differ = packets.iter().any(|packet| packet[..3] != packets[0][..3]);
    if differ || totals.iter().any(|&total| total > MOST) {
        return Err(16);
    }
    let dates: Vec<i128> = packets.iter().zip(&totals).map(|(&packet, &total)| date(packet, total)).collect();
    if dates.iter().any(|&date| !Scale::Tai.spans(moment_at(date))) {
        return Err(7);
    }
    Ok(Run { dates: dates.iter().map(|&date| date as i64).collect(), last: last as u64 })
}
