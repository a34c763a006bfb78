//! Damaged calls and damaged lines at the boundary, for a stated time: each answer is compared with the independent program's and
//! held to the laws of laws.rs. What differs is kept. It is typed through fuzz/run.
//!
//!     fuzz run SECONDS SEED FOLDER [first] [laws]     first: it ends with the first difference; laws: they alone are looked at
//!     fuzz replay FILE

#[path = "../tests/compare"]
mod compare {
    pub mod calls;
    pub mod server;
}
#[path = "../tests/independent/mod.rs"]
mod independent;
#[path = "../tests/desk/random.rs"]
#[allow(dead_code)]
mod lines;

mod damage;
mod desk;
mod kept;
mod laws;
mod library;
mod marks;
mod runs;
mod season;
mod times;

use compare::{calls, server};
use calls::{Answer, Call, Function, Random, FUNCTIONS};
use std::collections::BTreeMap;
use std::path::{Path, PathBuf};
use std::process::exit;
use std::sync::Mutex;
use std::time::{Duration, Instant};

const DESK: [&str; 2] = ["tools/x86-64", "target/fuzz/desk"];
const BATCH: usize = 250;
/// Calls that met new code, of each function.
const POOL: usize = 400;
const SHOWN: usize = 5;

/// What to keep if the server ends: the calls that it was asked.
static ASKED: Mutex<Option<(PathBuf, String, String)>> = Mutex::new(None);

fn main() {
    let words: Vec<String> = std::env::args().skip(1).collect();
    let words: Vec<&str> = words.iter().map(String::as_str).collect();
    match words.as_slice() {
        ["replay", file] => replay(file),
        ["run", seconds, seed, folder, more @ ..] => {
            let (Ok(seconds), Ok(seed)) = (seconds.parse(), seed.parse::<u64>()) else { usage() };
            let mut fuzz = Fuzz::new(Path::new(folder), seed, more);
            fuzz.run(Duration::from_secs(seconds));
            exit(i32::from(fuzz.tell() > 0))
        }
        _ => usage(),
    }
}

fn usage() -> ! {
    stop("usage: fuzz run SECONDS SEED FOLDER [first] [laws] | fuzz replay FILE")
}

/// Ends it; a server that ended has its last calls kept.
fn stop(why: &str) -> ! {
    eprintln!("fuzz: {why}");
    let asked = ASKED.lock().map(|mut asked| asked.take());
    if let Ok(Some((folder, name, text))) = asked {
        let path = kept::keep(&folder, &name, &text);
        println!("FOUND the server ended; one of the calls it was asked ended it: fuzz/run replay {}", path.display());
        exit(1)
    }
    exit(2)
}

#[derive(Default)]
struct Tally {
    calls: usize,
    again: usize,
    numbers: BTreeMap<u64, usize>,
}

struct Fuzz {
    folder: PathBuf,
    seed: u64,
    first: bool,
    laws: bool,
    server: server::Server,
    pools: Vec<Vec<Call>>,
    tallies: Vec<Tally>,
    /// How much the emulator had told.
    met: u64,
    found: usize,
    /// Runs of `desk`, their bytes and their lines.
    desk: (usize, usize, usize),
    began: Instant,
}

impl Fuzz {
    fn new(folder: &Path, seed: u64, words: &[&str]) -> Fuzz {
        let [first, laws] = ["first", "laws"].map(|word| words.contains(&word));
        let none = || FUNCTIONS.iter().map(|_| Vec::new()).collect();
        let tallies = FUNCTIONS.iter().map(|_| Tally::default()).collect();
        let (folder, server, began) = (folder.to_path_buf(), library::start(), Instant::now());
        Fuzz { folder, seed, first, laws, server, pools: none(), tallies, met: 0, found: 0, desk: (0, 0, 0), began }
    }

    fn run(&mut self, time: Duration) {
        let random = |function: &Function| Random::new(&format!("{} {}", self.seed, function.name()));
        let mut randoms: Vec<Random> = FUNCTIONS.iter().map(random).collect();
        let mut lines = Random::new(&format!("{} desk", self.seed));
        while self.began.elapsed() < time {
            for (&function, random) in FUNCTIONS.iter().zip(&mut randoms) {
                self.batch(function, random);
                if self.first && self.found > 0 || self.began.elapsed() >= time {
                    return;
                }
            }
            self.lines(&mut lines);
        }
    }

    fn ask(&mut self, calls: &[Call]) -> Vec<Answer> {
        let text: String = calls.iter().map(kept::told).collect();
        *ASKED.lock().expect("one thread") = Some((self.folder.clone(), format!("ended-{}", self.seed), text));
        let answers = self.server.ask(calls);
        *ASKED.lock().expect("one thread") = None;
        answers
    }

    fn batch(&mut self, function: Function, random: &mut Random) {
        let at = function as usize;
        let batch: Vec<Call> = (0..BATCH).map(|_| damage::call(random, function, &self.pools[at])).collect();
        let answers = self.ask(&batch);
        let mut further: Vec<(&Call, laws::Again)> = Vec::new();
        for (call, answer) in batch.iter().zip(&answers) {
            let right = call.model();
            *self.tallies[at].numbers.entry(answer.words[0]).or_default() += 1;
            if *answer != right && !self.laws {
                self.keep(call, &format!("the library: {answer:x?}\n    independent: {right:x?}"));
            } else if let Some(why) = laws::broken(call, answer) {
                self.keep(call, &format!("{why}: {answer:x?}"));
            } else {
                further.extend(laws::again(call, answer).map(|again| (call, again)));
            }
        }
        let calls: Vec<Call> = further.iter().map(|(_, again)| again.call.clone()).collect();
        let answers = self.ask(&calls);
        for ((call, again), answer) in further.iter().zip(&answers) {
            if !again.agrees(answer) {
                self.keep(call, &format!("{}: {answer:x?}", again.wrong));
            }
        }
        self.tallies[at].calls += batch.len();
        self.tallies[at].again += calls.len();
        let met = library::met();
        if met > self.met && self.pools[at].len() < POOL {
            self.pools[at].extend(batch);
        }
        self.met = met;
    }

    fn lines(&mut self, random: &mut Random) {
        let run = desk::make(random);
        match desk::differs(&DESK, &run, Path::new("target/fuzz")) {
            Ok(lines) => self.desk = (self.desk.0 + 1, self.desk.1 + run.input.len(), self.desk.2 + lines),
            Err(why) => self.say("desk", &kept::told_desk(&run), &why),
        }
    }

    fn keep(&mut self, call: &Call, why: &str) {
        self.say(call.function.name(), &kept::told(call), why);
    }

    fn say(&mut self, name: &str, text: &str, why: &str) {
        self.found += 1;
        // a rule that is broken at all is broken often
        if self.found <= 200 {
            let path = kept::keep(&self.folder, &format!("{name}-{}-{}", self.seed, self.found), text);
            if self.found <= SHOWN {
                let after = self.began.elapsed().as_secs_f64();
                println!("FOUND after {after:.1} s, {name}: {why}\n    fuzz/run replay {}", path.display());
            }
        }
    }

    fn tell(&self) -> usize {
        let seconds = self.began.elapsed().as_secs_f64();
        let mut all = 0;
        for (function, tally) in FUNCTIONS.iter().zip(&self.tallies) {
            all += tally.calls + tally.again;
            println!("{}: {} calls, {} called again; numbers {:?}", function.name(), tally.calls, tally.again, tally.numbers);
        }
        let (runs, bytes, lines) = self.desk;
        println!("desk: {runs} runs, {bytes} bytes, {lines} lines");
        println!("seed {}: {all} calls in {seconds:.0} s, {:.0} a second; {} found", self.seed, all as f64 / seconds, self.found);
        self.found
    }
}

/// Each kept call by itself, told before it is asked: the last one told may have ended the server.
fn replay(file: &str) -> ! {
    let mut server = library::start();
    let mut differ = 0;
    for kept in kept::read(file) {
        let wrong = match &kept {
            kept::Kept::Call(call) => {
                print!("{}", kept::told(call));
                library::wrong(&mut server, call)
            }
            kept::Kept::Desk(run) => {
                println!("desk, {} bytes", run.input.len());
                desk::differs(&DESK, run, Path::new("target/fuzz")).err()
            }
        };
        differ += usize::from(wrong.is_some());
        println!("    {}", wrong.as_deref().unwrap_or("nothing is wrong"));
    }
    println!("{differ} differ");
    exit(i32::from(differ > 0))
}
