//! The library behind the comparison's server, and one call that is looked at by itself.

use crate::calls::{Answer, Call, Function, FUNCTIONS};
use crate::laws;
use crate::server::Server;

/// The emulator tells here each piece of code that it meets for the first time.
const MET: &str = "target/fuzz/met";
/// So many seconds of the processor's time a call may take.
const SECONDS: &str = "10";

pub fn start() -> Server {
    let log = format!("QEMU_LOG_FILENAME={MET}");
    Server::start(&["env", "QEMU_LOG=in_asm", &log, "tools/x86-64", "target/fuzz/serve", SECONDS].map(String::from))
}

/// How much the emulator has told.
pub fn met() -> u64 {
    std::fs::metadata(MET).map_or(0, |file| file.len())
}

pub fn named(name: &str) -> Option<Function> {
    FUNCTIONS.iter().copied().find(|function| function.name() == name)
}

/// The lengths that a reader takes: of the images, of the shorter texts, and of small seasons.
pub fn lengths() -> Vec<usize> {
    let images = FUNCTIONS.iter().filter_map(|function| function.shape().image.as_ref());
    images.filter(|image| image.is_known()).map(|image| image.length).chain([20, 24, 27, 2, 50, 98]).collect()
}

fn ask(server: &mut Server, call: &Call) -> Answer {
    server.ask(std::slice::from_ref(call)).remove(0)
}

/// What is wrong with the answer to a call.
pub fn wrong(server: &mut Server, call: &Call) -> Option<String> {
    let (answer, right) = (ask(server, call), call.model());
    if answer != right {
        return Some(format!("the library: {answer:x?}\n    independent: {right:x?}"));
    }
    if let Some(why) = laws::broken(call, &answer) {
        return Some(format!("{why}: {answer:x?}"));
    }
    // asked at once, since each asking waits for the server
    let again: Vec<laws::Again> = laws::again(call, &answer).collect();
    let calls: Vec<Call> = again.iter().map(|again| again.call.clone()).collect();
    let answers = server.ask(&calls);
    let differs = again.iter().zip(&answers).find(|(again, got)| !again.agrees(got));
    differs.map(|(again, got)| format!("{}: {got:x?}", again.wrong))
}
