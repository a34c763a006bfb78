//! What holds of SIRAL's runs: they are of one second, and their dates never fall; a packet by itself is dated as it is read;
//! a run that is cut has the same dates; other places change nothing; and a roll more that is told moves every date by a roll.

use crate::calls::{bytes_of, digest, refusal, words_of, Answer, Call, Function};
use crate::laws::{due, stays, Again};
use crate::times::LAST_DAY;

const PACKET: usize = 10;
/// The bytes of day, millisecond and microsecond.
const FRONT: usize = 8;
const DAY: i64 = 86_400_000_000;
/// Where the span ends.
const END: i64 = (LAST_DAY + 1) * DAY;
/// A roll of the extra counter, in units and in microseconds, and the last total below a second.
const ROLL: u64 = 65_536;
const ROLL_MICROS: i64 = 135_168;
const MOST: u64 = 484_848;

/// The number in so many bytes, most significant first.
fn number(bytes: &[u8]) -> u64 {
    bytes.iter().fold(0, |n, &byte| n << 8 | u64::from(byte))
}

fn extra(packet: &[u8]) -> u64 {
    number(&packet[FRONT..])
}

/// The total of a packet by its date: a unit is 33/16 microseconds, so that no two totals have one date.
fn total(packet: &[u8], date: i64) -> u64 {
    let fields = number(&packet[..2]) as i64 * DAY + number(&packet[2..6]) as i64 * 1000 + number(&packet[6..FRONT]) as i64;
    (16 * (date - fields) + 32).div_euclid(33) as u64
}

/// The bytes of a run, what is told, and the places that are lent.
fn run(bytes: &[u8], told: u64, places: usize) -> Call {
    Call { function: Function::SiralRun, words: vec![told], slices: vec![bytes.to_vec(), vec![0x5a; 8 * places]] }
}

fn dates(answer: &Answer) -> Vec<i64> {
    words_of(&answer.lent[0]).into_iter().take(answer.words[1] as usize).map(|date| date as i64).collect()
}

/// What is wrong with an answer.
pub fn broken(call: &Call, answer: &Answer) -> Option<&'static str> {
    if call.function != Function::SiralRun {
        return None;
    }
    let (bytes, told, last) = (call.slice("bytes"), call.number("told"), answer.words[2]);
    if answer.words[0] != 0 {
        return bytes.is_empty().then_some("an empty run is refused");
    }
    let (packets, dates) = (bytes.chunks(PACKET), dates(answer));
    if answer.words[1] != dates.len() as u64 || PACKET * dates.len() != bytes.len() {
        return Some("a count that is not the packets'");
    }
    if answer.lent[0][8 * dates.len()..] != call.slice("dates")[8 * dates.len()..] {
        return Some("a place written behind the dates");
    }
    if packets.clone().any(|packet| packet[..FRONT] != bytes[..FRONT]) {
        return Some("packets of two seconds in one run");
    }
    if !dates.is_sorted() {
        return Some("dates that fall");
    }
    if dates.iter().any(|date| !(0..END).contains(date)) {
        return Some("a date outside the span");
    }
    let is_last = packets.last().map_or(last == told, |packet| last % ROLL == extra(packet) && (told..=MOST).contains(&last));
    (!is_last).then_some("a last total that is not the last packet's")
}

/// A packet that was read, as a run of one of which nothing is told: the same time, or the same refusal.
fn alone(call: &Call, answer: &Answer) -> Option<Again> {
    let packet = Some(call.slice("bytes")).filter(|bytes| bytes.len() == PACKET)?;
    let call = run(packet, 0, 1);
    let due = match answer.words[..] {
        [0, _, day, micro, ..] => due(&[0, 1, extra(packet)], vec![bytes_of(&[day * DAY as u64 + micro])]),
        _ => due(&answer.words[..1], call.lent()),
    };
    Some(stays(call, &due, "a run of one packet is not its reading"))
}

/// The run cut in two anywhere, its second part told the first's last total: the same dates, and the same last total.
fn cut(call: &Call, answer: &Answer) -> [Again; 2] {
    let (bytes, told, dates) = (call.slice("bytes"), call.number("told"), dates(answer));
    let at = (digest(bytes.iter().copied()) % (dates.len() as u64 + 1)) as usize;
    let between = at.checked_sub(1).map_or(told, |before| total(&bytes[PACKET * before..][..PACKET], dates[before]));
    let part = |from: usize, to: usize, told: u64, last: u64| {
        let image: Vec<u8> = dates[from..to].iter().flat_map(|date| date.to_le_bytes()).collect();
        let call = run(&bytes[PACKET * from..PACKET * to], told, to - from);
        stays(call, &due(&[0, (to - from) as u64, last], vec![image]), "a run that is cut has other dates")
    };
    [part(0, at, told, between), part(at, dates.len(), between, answer.words[2])]
}

/// The same run with other places: where it is answered with one more, and where it is refused with none.
fn with_places(call: &Call, answer: &Answer) -> Again {
    let (mut call, mut lent) = (call.clone(), answer.lent.clone());
    for slice in [&mut call.slices[1], &mut lent[0]] {
        let length = if answer.words[0] == 0 { slice.len() + 8 } else { 0 };
        slice.resize(length, 0x5a);
    }
    stays(call, &due(&answer.words, lent), "other places change it")
}

/// The same run, told a roll more: each date is a roll later, or it is refused 16 or 7. 1, 3 and 16 stay; 7 and 13 may not.
fn rolled(call: &Call, answer: &Answer) -> Option<Again> {
    let mut call = call.clone();
    call.words[0] = call.words[0].checked_add(ROLL)?;
    let (count, last) = (answer.words[1], answer.words[2] + ROLL);
    let later: Vec<i64> = dates(answer).iter().map(|date| date + ROLL_MICROS).collect();
    let due = match answer.words[0] {
        0 if count > 0 && last > MOST => due(&[refusal::NOT_ONE_SECOND], call.lent()),
        0 if later.iter().any(|&date| date >= END) => due(&[refusal::OUTSIDE_SPAN], call.lent()),
        0 => {
            let mut lent = call.lent();
            lent[0].iter_mut().zip(later.iter().flat_map(|date| date.to_le_bytes())).for_each(|(byte, new)| *byte = new);
            due(&[0, count, last], lent)
        }
        refusal::LENGTH_IS_NONE | refusal::FIELD_OVER | refusal::NOT_ONE_SECOND => due(&answer.words, call.lent()),
        _ => return None,
    };
    Some(stays(call, &due, "a roll more that is told changes it otherwise"))
}

/// The further calls that follow from an answer.
pub fn again(call: &Call, answer: &Answer) -> Vec<Again> {
    match call.function {
        Function::SiralRead => alone(call, answer).into_iter().collect(),
        Function::SiralRun => {
            let parts = (answer.words[0] == 0).then(|| cut(call, answer));
            let others = [with_places(call, answer)].into_iter().chain(rolled(call, answer));
            parts.into_iter().flatten().chain(others).collect()
        }
        _ => Vec::new(),
    }
}
