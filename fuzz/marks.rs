//! What holds of marks: which one an answered time has, that a record whose mark stands for nothing is refused, and that another
//! mark changes nothing but the mark of a changed time and the H3 that Proteus is written with.

use crate::calls::{refusal, Answer, Call, Function, Shape};
use crate::laws::{stays, Again};

/// The code of a mark, and its source.
type Mark = [u64; 2];

const PLAIN: u64 = 0;
const PROTEUS: u64 = 1;
const CORRELATED: u64 = 2;
/// The kinds of a time.
const RECORD: u64 = 0;
const DECIMAL: u64 = 1;

/// Where the kind, the mark and the source of the time stand that a function takes.
fn taken(shape: &Shape) -> Option<[usize; 3]> {
    let place = |name| shape.field("time", name);
    Some([place("kind")?, place("mark")?, place("source")?])
}

/// Where the mark and the source stand of the time that a function gives.
fn given(shape: &Shape) -> Option<[usize; 2]> {
    Some([shape.gives("mark")?, shape.gives("source")?])
}

/// The mark of the time that is handed in, if its kind and its mark stand for anything.
fn handed(call: &Call) -> Option<Mark> {
    let [kind, mark, source] = taken(call.function.shape())?.map(|at| call.words[at]);
    match (kind, mark) {
        (DECIMAL, _) | (RECORD, PLAIN) => Some([PLAIN, 0]),
        (RECORD, PROTEUS) if source < 2 => Some([PROTEUS, source]),
        (RECORD, CORRELATED) => Some([CORRELATED, source]),
        _ => None,
    }
}

/// The mark that a time has where it is answered: of a date the reference, which is the correlation's first number.
fn due(call: &Call) -> Option<Mark> {
    match call.function {
        Function::Change => handed(call),
        Function::ProteusRead => call.slice("bytes").get(1).map(|byte| [PROTEUS, u64::from(byte & 1)]),
        Function::SbtDate | Function::GoceDate => Some([CORRELATED, call.numbers("correlation")[0]]),
        _ => Some([PLAIN, 0]),
    }
}

/// The second byte of a Proteus image, H3 being its last bit, as a mark makes it.
fn with_h3(byte: u8, mark: Mark) -> u8 {
    byte & !1 | u8::from(mark == [PROTEUS, 1])
}

/// What is wrong with an answer.
pub fn broken(call: &Call, answer: &Answer) -> Option<&'static str> {
    let (shape, number, mark) = (call.function.shape(), answer.words[0], handed(call));
    if taken(shape).is_some() && mark.is_none() && number != refusal::FIELD_OVER {
        return Some("a kind or a mark that stands for nothing is taken");
    }
    if number != 0 {
        return None;
    }
    if given(shape).is_some_and(|places| Some(places.map(|at| answer.words[at])) != due(call)) {
        return Some("a mark that is not due");
    }
    let has_h3_of = |mark| answer.lent[0].get(1).is_some_and(|&byte| byte == with_h3(byte, mark));
    (call.function == Function::ProteusWrite && !mark.is_some_and(has_h3_of)).then_some("an H3 that is not the mark's")
}

/// Another mark for a record, a plain one with a source that nothing may look at; for a decimal day one that stands for nothing.
fn another(kind: u64, [mark, source]: Mark) -> Mark {
    match (kind, mark) {
        (DECIMAL, _) => [u32::MAX.into(), u64::MAX],
        (_, PLAIN) => [PROTEUS, 1],
        (_, PROTEUS) => [CORRELATED, u64::MAX],
        _ => [PLAIN, source],
    }
}

/// The same call with another mark.
pub fn again(call: &Call, answer: &Answer) -> Option<Again> {
    let shape = call.function.shape();
    let ([kind, mark, source], own) = taken(shape).zip(handed(call))?;
    let mut call = call.clone();
    [call.words[mark], call.words[source]] = another(call.words[kind], own);
    let mut same = Answer { words: answer.words.clone(), lent: answer.lent.clone() };
    if answer.words[0] == 0 {
        if let Some(([mark, source], due)) = given(shape).zip(due(&call)) {
            [same.words[mark], same.words[source]] = due;
        }
        if call.function == Function::ProteusWrite {
            same.lent[0][1] = with_h3(same.lent[0][1], handed(&call)?);
        }
    }
    Some(stays(call, &same, "another mark changes it"))
}
