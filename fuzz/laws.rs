//! What holds of every answer whatever the independent program says: the form of a refusal and of an answer, that no date is later
//! than its receipt, that what is written reads back and what is read is written again, that a wider window changes nothing but an
//! 8 and a longer list besides nothing but an 8 or a 9, and that a list which is not used changes nothing. The parts of a call are
//! found by their names, so that these laws hold of a new pair of functions without a line here; marks.rs has what holds of marks,
//! runs.rs what of SIRAL's runs, season.rs what of the season's file.

use crate::calls::{refusal, Answer, Call, Function, Shape, ANSWER};
use crate::library::named;
use crate::{marks, runs, season};
use crate::times::{List, Time, LAST_DAY, UTC};

/// A lent slice as it is left.
fn left<'a>(function: Function, answer: &'a Answer, name: &str) -> Option<&'a [u8]> {
    let mut lent = function.shape().slices().filter(|(.., lent)| *lent);
    lent.position(|(own, ..)| own == name).map(|at| &answer.lent[at][..])
}

/// What is wrong with the form of an answer.
pub fn broken(call: &Call, answer: &Answer) -> Option<&'static str> {
    let (shape, number) = (call.function.shape(), answer.words[0]);
    if !call.function.numbers().contains(&number) {
        return Some("no number of the function");
    }
    // a function that refuses nothing has no other values
    let refusal = shape.gives("refusal")?;
    let time = Time::answered(call.function, answer);
    if time.is_some_and(|time| time.span().is_none()) {
        return Some("no scale");
    }
    if let Some(why) = marks::broken(call, answer).or_else(|| runs::broken(call, answer)) {
        return Some(why);
    }
    if number != 0 {
        let kept = [Some(refusal), shape.gives("scale")];
        let empty = answer.words.iter().enumerate().all(|(at, &word)| word == 0 || kept.contains(&Some(at)));
        return if answer.lent != call.lent() { Some("a refusal that writes") } else { (!empty).then_some("a refusal with a value") };
    }
    if time.is_some_and(|time| !time.is_in_span()) {
        return Some("a time outside its span");
    }
    if let Some(why) = season::broken(call, answer) {
        return Some(why);
    }
    let listed = time.filter(|time| time.scale == UTC).zip(List::of(call));
    if listed.is_some_and(|(time, list)| !list.knows(time)) {
        return Some("a time that the list does not tell of");
    }
    let dated = time.and_then(|time| Some((time, Time::received(call, time.scale)?)));
    if dated.is_some_and(|(time, receipt)| time.is_later(receipt, call)) {
        return Some("a date later than its receipt");
    }
    let image = shape.image.as_ref()?;
    let length = answer.words[shape.gives("length")?];
    let due = image.told.map_or(if image.fixed { image.length as u64 } else { length }, |name| call.number(name));
    let (lent, left) = (call.slice("out"), left(call.function, answer, "out")?);
    if length != due || due > image.length.min(lent.len()) as u64 {
        return Some("a length that is not the image's");
    }
    (left[due as usize..] != lent[due as usize..]).then_some("a byte written behind the image")
}

/// A counter: what dates it, what turns a time into its count, half its wrap, and the most microseconds from one count to a time
/// before the next; under a UTC correlation they are TAI's.
struct Clock {
    date: Function,
    turn: Function,
    half: u64,
    most: u64,
}

const CLOCKS: &[Clock] = &[
    Clock { date: Function::SbtDate, turn: Function::SbtTick, half: 1 << 31, most: 3906 },
    Clock { date: Function::GoceDate, turn: Function::GoceCount, half: 1 << 47, most: 15 },
];

fn clock(function: Function) -> Option<&'static Clock> {
    CLOCKS.iter().find(|clock| [clock.date, clock.turn].contains(&function))
}

/// The function that undoes another, and how many microseconds earlier the time may be that comes back.
fn undoing(function: Function) -> Option<(Function, u64)> {
    if let Some(clock) = clock(function) {
        return Some(if function == clock.date { (clock.turn, 0) } else { (clock.date, clock.most) });
    }
    if let Some(layout) = function.name().strip_suffix("_write") {
        // fractions of 1/65536 s
        let early = if [Function::CucWrite, Function::ProteusWrite].contains(&function) { 15 } else { 0 };
        return Some((named(&format!("{layout}_read"))?, early));
    }
    if let Some(layout) = function.name().strip_suffix("_read") {
        // a decimal day is rounded when it is read; bytes are not
        return Some((named(&format!("{layout}_write")).filter(|writer| writer.shape().image.is_some())?, 0));
    }
    (function == Function::Change).then_some((function, 0))
}

/// An answered call; what undoes it is made of its parts.
struct Done<'a> {
    call: &'a Call,
    answer: &'a Answer,
    handed: Option<Time>,
}

/// What a count is called that is handed in.
const COUNTS: [&str; 3] = ["count", "tick", "obt"];

impl Done<'_> {
    fn taken(&self, name: &str) -> Option<&[u64]> {
        self.call.function.shape().words(name).map(|place| &self.call.words[place])
    }

    fn given(&self, name: &str) -> Option<u64> {
        self.call.function.shape().gives(name).map(|at| self.answer.words[at])
    }

    /// The bytes that were read, or the image.
    fn bytes(&self) -> Option<&[u8]> {
        if let Some(length) = self.given("length") {
            return left(self.call.function, self.answer, "out").map(|left| &left[..length as usize]);
        }
        let at = self.call.function.shape().slices().position(|(_, width, lent)| width == 1 && !lent);
        at.map(|at| &self.call.slices[at][..])
    }

    /// What a parameter of a function is handed.
    fn numbers(&self, shape: &Shape, name: &str) -> Option<Vec<u64>> {
        let place = shape.words(name)?;
        let one = match name {
            // a record, whose kind is 0, of the answer's fields
            "time" => {
                Time::answered(self.call.function, self.answer)?;
                return Some(shape.fields()[place].iter().map(|(field, _)| self.given(field).unwrap_or(0)).collect());
            }
            "scale" | "to_scale" => self.handed.map(|time| time.scale),
            // received at the time itself
            "receipt_day" => self.handed.map(|time| time.day as u64),
            "receipt_micro" => self.handed.map(|time| time.micro),
            _ if COUNTS.contains(&name) => self.given("count"),
            _ => self.given(name),
        };
        one.map(|one| vec![one]).or_else(|| self.taken(name).map(<[u64]>::to_vec)).filter(|all| all.len() == place.len())
    }

    /// The call of a function with these parts.
    fn follow(&self, function: Function) -> Option<Call> {
        let shape = function.shape();
        let told = shape.image.as_ref().and_then(|image| image.told);
        let mut words = Vec::new();
        for name in shape.takes.iter().map(|parameter| parameter.name) {
            if shape.words(name).is_some() {
                words.extend(if told == Some(name) { vec![self.bytes()?.len() as u64] } else { self.numbers(shape, name)? });
            }
        }
        let mut slices = Vec::new();
        for (name, width, lent) in shape.slices() {
            let given = self.call.function.shape().slices().position(|(own, _, lent)| own == name && !lent);
            slices.push(match given {
                Some(at) if !lent => self.call.slices[at].clone(),
                _ if width > 1 => return None,
                // as many bytes as there were
                _ if lent => vec![0x5a; self.bytes()?.len()],
                _ => self.bytes()?.to_vec(),
            });
        }
        Some(Call { function, words, slices })
    }

    /// What a field of its answer must be, where these parts tell it.
    fn due(&self, name: &str) -> Option<u64> {
        match name {
            "refusal" => Some(0),
            "length" => self.bytes().map(|bytes| bytes.len() as u64),
            "count" => COUNTS.iter().find_map(|name| self.taken(name)).map(|count| count[0]),
            _ => self.taken(name).map(|numbers| numbers[0]),
        }
    }
}

/// A further call that follows from an answer, and what it must give.
pub struct Again {
    pub call: Call,
    /// The words, where they are known.
    words: Vec<Option<u64>>,
    /// The time, or one at most so many microseconds earlier.
    time: Option<(Time, u64)>,
    lent: Vec<Vec<u8>>,
    /// What is wrong where it gives something else.
    pub wrong: &'static str,
}

/// The call that undoes an answered one.
fn back(call: &Call, answer: &Answer) -> Option<Again> {
    if answer.words[0] != 0 {
        return None;
    }
    let (function, early) = undoing(call.function)?;
    let done = Done { call, answer, handed: Time::handed(call) };
    let is_decimal = done.handed.is_none() && done.taken("time").is_some();
    // the image of a SIRAL time has no extra counter
    let has_extra = call.function == Function::SiralRead && !call.slice("bytes").ends_with(&[0, 0]);
    // the count of a time at the span's beginning may stand for a time before it
    let is_first = |time: Time| time.span().is_some_and(|(first, _)| time.day == first) && time.micro < early;
    let is_before = clock(call.function).is_some() && done.handed.is_some_and(is_first);
    if is_decimal || has_extra || is_before {
        return None;
    }
    let call = done.follow(function)?;
    let words = function.shape().gives.iter().map(|name| done.due(name)).collect();
    let lent = call.lent().iter().filter_map(|_| done.bytes().map(<[u8]>::to_vec)).collect();
    let time = done.handed.map(|time| (time, early));
    Some(Again { call, words, time, lent, wrong: "it does not come back" })
}

/// An answer of these words, and zeroes behind them.
pub fn due(words: &[u64], lent: Vec<Vec<u8>>) -> Answer {
    let mut words = words.to_vec();
    words.resize(ANSWER, 0);
    Answer { words, lent }
}

/// The same answer to another call.
pub fn stays(call: Call, answer: &Answer, wrong: &'static str) -> Again {
    let words = answer.words.iter().map(|&word| Some(word)).collect();
    Again { call, words, time: None, lent: answer.lent.clone(), wrong }
}

/// The call of a clock with the widest window.
fn widened(call: &Call) -> Option<Call> {
    let (mut call, half) = (call.clone(), clock(call.function)?.half);
    for (name, most) in [("back", half), ("ahead", half - 1)] {
        let at = call.function.shape().field("correlation", name)?;
        call.words[at] = most;
    }
    Some(call)
}

/// The same call with the widest window. One that is not accepted may have a window that is wider.
fn wider(call: &Call, answer: &Answer) -> Option<Again> {
    let may_change = [refusal::CORRELATION_NOT_ACCEPTED, refusal::NOT_IN_FORCE].contains(&answer.words[0]);
    widened(call).filter(|_| !may_change).map(|call| stays(call, answer, "a wider window changes it"))
}

/// The same call with its list to the last day of all, of a clock with the widest window too. A list may be not accepted for its
/// last day alone.
fn longer(call: &Call, answer: &Answer) -> Option<Again> {
    use refusal::{CORRELATION_NOT_ACCEPTED, LIST_EXPIRED, LIST_NOT_ACCEPTED, NOT_IN_FORCE};
    let may_change = [LIST_NOT_ACCEPTED, CORRELATION_NOT_ACCEPTED, NOT_IN_FORCE, LIST_EXPIRED].contains(&answer.words[0]);
    let shape = call.function.shape();
    let last = shape.words("last").filter(|_| !may_change && shape.gives("refusal").is_some())?;
    let mut call = widened(call).unwrap_or_else(|| call.clone());
    call.words[last.start] = LAST_DAY as u64;
    Some(stays(call, answer, "a longer list changes it"))
}

/// The same call without a list, of a clock that is not kept in UTC; GOCE's always is.
fn listless(call: &Call, answer: &Answer) -> Option<Again> {
    clock(call.function)?;
    let shape = call.function.shape();
    let scale = call.words[shape.field("correlation", "scale")?];
    let mut call = call.clone();
    for name in ["days", "offsets"] {
        call.slices[shape.slice(name)?].clear();
    }
    (scale != UTC).then(|| stays(call, answer, "a list that is not used changes it"))
}

pub fn again(call: &Call, answer: &Answer) -> impl Iterator<Item = Again> {
    let same = [wider(call, answer), longer(call, answer), listless(call, answer), marks::again(call, answer)];
    let own = runs::again(call, answer).into_iter().chain(season::again(call, answer));
    back(call, answer).into_iter().chain(same.into_iter().flatten()).chain(own)
}

impl Again {
    pub fn agrees(&self, got: &Answer) -> bool {
        let words = self.words.iter().zip(&got.words).all(|(due, got)| due.is_none_or(|due| due == *got));
        let time = self.time.zip(Time::answered(self.call.function, got));
        let comes_back = time.is_none_or(|((due, early), got)| due.comes_back(got, early, &self.call));
        words && comes_back && got.lent == self.lent && marks::broken(&self.call, got).is_none()
    }
}
