//! Dates a file of packets, a line for each: date_packets FILE. packets.py says what the file has. Its exit status is 1 where
//! the last packet is cut off, and 2 where the file cannot be read.
//!
//!     cargo run --manifest-path rust/Cargo.toml --example date_packets examples/packets.bin

use std::fs;
use std::io::{self, Write};
use std::path::{Path, PathBuf};
use std::process::ExitCode;
use vrikshonem::{cryosat, cuc, goce, proteus, sbt, siral, text};
use vrikshonem::{Error, Form, GoceCorrelation, LeapList, SbtCorrelation, Tick, Utc};

const PACKET: usize = 24;
const LONGEST: usize = 10;
const LIST: LeapList<'static> = LeapList::PUBLISHED;
const NAMES: [&str; 7] = ["?", "CUC", "Proteus", "CryoSat", "SIRAL", "SBT", "GOCE"];

// What is received from 31 December 2016 on is dated by the newer correlation of its clock, the second of each pair.
const NEWER_FROM: i64 = 6209;

// 2 October 2001, 10:00:00 UTC; it may be relied on a day back and thirty days ahead. And 31 December 2016, 23:59:59 UTC; it may be
// relied on for 7.8125 s either way.
const SBT_CORRELATIONS: [SbtCorrelation<Utc>; 2] = [
    SbtCorrelation {
        tick: Tick(0xFFFF_F000),
        reference: Utc::new(640, 36_000_000_000),
        period: 3_906_250_000,
        back: 86_400 * 256,
        ahead: 30 * 86_400 * 256,
    },
    SbtCorrelation {
        tick: Tick(7),
        reference: Utc::new(6209, 86_399_000_000),
        period: 3_906_250_000,
        back: 2_000,
        ahead: 2_000,
    },
];

// 17 March 2009, 16:00:00 UTC less a quarter of a second, with as wide a window; the clock loses 21 ns in a second. And 31 December
// 2016, 23:59:59 UTC and 1/65536 s; it may be relied on for 8 s either way.
const GOCE_CORRELATIONS: [GoceCorrelation; 2] = [
    GoceCorrelation {
        obt0: 0xFFFF_FFFF_0000,
        utc0: (3363 * 86_400 + 57_600) * 65_536,
        offset: -16_384,
        gradient: 1_000_000_021,
        back: 86_400 * 65_536,
        ahead: 30 * 86_400 * 65_536,
    },
    GoceCorrelation {
        obt0: 7,
        utc0: (6209 * 86_400 + 86_399) * 65_536,
        offset: 1,
        gradient: 1_000_000_000,
        back: 8 * 65_536,
        ahead: 8 * 65_536,
    },
];

fn number(bytes: &[u8]) -> u64 {
    bytes.iter().fold(0, |value, &byte| value << 8 | u64::from(byte))
}

fn dated(packet: &[u8]) -> Result<Utc, Error> {
    let time = &packet[2..2 + usize::from(packet[1])];
    let receipt = Utc::new(i64::from(number(&packet[12..16]) as i32), number(&packet[16..24]));
    let which = usize::from(receipt.day >= NEWER_FROM);
    match packet[0] {
        1 => cuc::read(time)?.to_utc(&LIST),
        2 => proteus::read(time),
        3 => cryosat::read(time)?.to_utc(&LIST),
        4 => siral::read(time)?.to_utc(&LIST),
        5 => SBT_CORRELATIONS[which].date(sbt::read(time)?, receipt, &LIST),
        _ => GOCE_CORRELATIONS[which].date(goce::read(time)?, receipt, &LIST),
    }
}

fn said(packet: &[u8]) -> String {
    let layout = usize::from(packet[0]);
    if !(1..=6).contains(&layout) || usize::from(packet[1]) > LONGEST {
        return "?       not a packet".to_string();
    }
    match dated(packet).and_then(|utc| text::string(utc, Form::PrefixedMicros, &LIST)) {
        Ok(text) => format!("{:7} {text}", NAMES[layout]),
        Err(refused) => format!("{:7} {refused}", NAMES[layout]),
    }
}

/// How many bytes are left after the last packet.
fn date(name: &Path) -> Result<usize, String> {
    let file = fs::read(name).map_err(|why| format!("{}: {why}", name.display()))?;
    let mut out = io::stdout().lock();
    for (line, packet) in (1..).zip(file.chunks_exact(PACKET)) {
        writeln!(out, "{line:2} {}", said(packet)).map_err(|why| format!("standard output: {why}"))?;
    }
    Ok(file.len() % PACKET)
}

fn main() -> ExitCode {
    let words: Vec<_> = std::env::args_os().skip(1).map(PathBuf::from).collect();
    let [name] = words.as_slice() else {
        eprintln!("usage: date_packets FILE");
        return ExitCode::from(2);
    };
    match date(name) {
        Ok(0) => ExitCode::SUCCESS,
        Ok(_) => {
            eprintln!("date_packets: the last packet is cut off");
            ExitCode::from(1)
        }
        Err(why) => {
            eprintln!("{why}");
            ExitCode::from(2)
        }
    }
}
