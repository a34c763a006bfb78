//! The program `desk` on whole inputs: lines of times, damaged anywhere, handed in as a file, through a pipe, or in packets of
//! which no two are read as one.

use crate::calls::Random;
use crate::damage;
use crate::independent::lines::answers;
use crate::lines;
use std::fs::File;
use std::io::{Read, Write};
use std::os::fd::{FromRawFd, OwnedFd};
use std::path::Path;
use std::process::{Child, Command, Stdio};
use std::time::{Duration, Instant};

/// Longer than this no run may take.
const MOST: Duration = Duration::from_secs(60);

#[derive(Clone, Copy, PartialEq)]
pub enum Way {
    File,
    Pipe,
    Packets,
}

const WAYS: [(Way, &str); 3] = [(Way::File, "file"), (Way::Pipe, "pipe"), (Way::Packets, "packets")];

impl Way {
    pub fn name(self) -> &'static str {
        WAYS[self as usize].1
    }

    pub fn named(name: &str) -> Option<Way> {
        WAYS.iter().find(|way| way.1 == name).map(|way| way.0)
    }
}

pub struct Run {
    pub way: Way,
    /// The sizes of the pieces, over and over.
    pub sizes: Vec<usize>,
    pub input: Vec<u8>,
}

pub fn make(random: &mut Random) -> Run {
    let (way, _) = random.pick(&WAYS);
    let most = match random.below(5) {
        0 => 200,
        1 => 4_000,
        // a packet costs a read each
        _ if way == Way::Packets => 30_000,
        _ => 250_000,
    };
    let bytes = random.below(most) as usize;
    let mut input = lines::lines(random.next(), bytes);
    let other = lines::lines(random.next(), 2_000);
    for _ in 0..random.below(2 + bytes as u64 / 100) {
        let at = random.below(input.len() as u64 + 1) as usize;
        let end = (at + random.below(80) as usize).min(input.len());
        let damaged = damage::bytes(random, input[at..end].to_vec(), &other);
        input.splice(at..end, damaged);
    }
    if random.one_in(6) {
        // one long line, in the middle
        let at = random.below(input.len() as u64 + 1) as usize;
        let long = vec![random.next() as u8; random.below(140_000) as usize];
        input.splice(at..at, long);
    }
    if random.one_in(3) {
        input.push(b'\n');
    }
    let largest = if way == Way::Packets { 4096 } else { 70_000 };
    let mut size = || {
        let most = if random.one_in(2) { 70 } else { largest };
        1 + random.below(most) as usize
    };
    let sizes = [size(), size(), size(), size(), size(), size(), size()].to_vec();
    Run { way, sizes, input }
}

extern "C" {
    fn pipe2(ends: *mut i32, flags: i32) -> i32;
}

/// The flag of a pipe of packets, which has another value on Arm.
const PACKETS: i32 = if cfg!(target_arch = "aarch64") { 0o200_000 } else { 0o40_000 };

fn pipe(flags: i32) -> Option<(OwnedFd, OwnedFd)> {
    const CLOSE_ON_EXEC: i32 = 0o2_000_000;
    let mut ends = [-1, -1];
    // SAFETY: two numbers are lent.
    let made = unsafe { pipe2(ends.as_mut_ptr(), flags | CLOSE_ON_EXEC) } == 0;
    // SAFETY: both ends were opened here and belong to nobody else.
    made.then(|| unsafe { (OwnedFd::from_raw_fd(ends[0]), OwnedFd::from_raw_fd(ends[1])) })
}

fn waited(child: &mut Child) -> Result<(), String> {
    let began = Instant::now();
    loop {
        match child.try_wait() {
            Ok(Some(status)) if status.success() => return Ok(()),
            Ok(Some(status)) => return Err(format!("{status}")),
            Ok(None) if began.elapsed() < MOST => std::thread::sleep(Duration::from_millis(2)),
            Ok(None) => {
                // the pipes end with it, and so do the threads
                let _ = child.kill().and_then(|()| child.wait());
                return Err(format!("it does not end in {} s", MOST.as_secs()));
            }
            Err(e) => return Err(e.to_string()),
        }
    }
}

/// What it prints.
fn printed(desk: &[&str], run: &Run, folder: &Path) -> Result<Vec<u8>, String> {
    let why = |e: std::io::Error| e.to_string();
    let mut feed = None;
    let stdin = if run.way == Way::File {
        let path = folder.join("in");
        std::fs::write(&path, &run.input).map_err(why)?;
        Stdio::from(File::open(&path).map_err(why)?)
    } else {
        let (from, to) = pipe(if run.way == Way::Packets { PACKETS } else { 0 }).ok_or("no pipe")?;
        feed = Some(File::from(to));
        Stdio::from(from)
    };
    let mut child = Command::new(desk[0]).args(&desk[1..]).stdin(stdin).stdout(Stdio::piped()).spawn().map_err(why)?;
    let mut stdout = child.stdout.take().ok_or("no standard output")?;
    let reader = std::thread::spawn(move || {
        let mut all = Vec::new();
        stdout.read_to_end(&mut all).map(|_| all)
    });
    let (input, sizes) = (run.input.clone(), run.sizes.clone());
    let feeder = std::thread::spawn(move || {
        let Some(mut pipe) = feed else { return };
        let (mut at, mut turn) = (0, 0);
        while at < input.len() {
            let end = (at + sizes[turn % sizes.len()]).min(input.len());
            // One that reads no further shows in what it prints.
            match pipe.write(&input[at..end]) {
                Ok(n) => at += n,
                Err(_) => return,
            }
            turn += 1;
        }
    });
    let ended = waited(&mut child);
    feeder.join().map_err(|_| "the feeding thread failed")?;
    let all = reader.join().map_err(|_| "the reading thread failed")?.map_err(why)?;
    ended.map(|()| all)
}

/// What is wrong with what it prints, or how many lines it printed.
pub fn differs(desk: &[&str], run: &Run, folder: &Path) -> Result<usize, String> {
    let (got, want) = (printed(desk, run, folder)?, answers(&run.input));
    let count = want.iter().filter(|&&byte| byte == b'\n').count();
    if got == want {
        return Ok(count);
    }
    let line = got.split(|&b| b == b'\n').zip(want.split(|&b| b == b'\n')).position(|(have, due)| have != due);
    Err(format!("line {} is another, or the lines are not {count}", line.unwrap_or(count) + 1))
}
