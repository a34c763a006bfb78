//! What holds of the season's file: both trips come back, the question agrees with the reader, looks at the contents alone, and is
//! not changed by an entry that it does not give.

use crate::calls::{bytes_of, refusal, words_of, Answer, Call, Function};
use crate::laws::{due, stays, Again};

/// The bytes of an entry of the contents and of a body; the words of an entry that is read and of a correlation that is written.
const ENTRY: usize = 20;
const BODY: usize = 28;
const READ: usize = 9;
const WRITTEN: usize = 7;
const DAY: i128 = 86_400_000_000;
const SPAN: std::ops::Range<i128> = -10227 * DAY..36525 * DAY;

/// The bytes of a file with so many entries.
fn length(entries: usize) -> usize {
    2 + (ENTRY + BODY) * entries
}

/// How many entries a file says that it has.
fn count(file: &[u8]) -> Option<usize> {
    Some(usize::from(u16::from_be_bytes(file.get(..2)?.try_into().ok()?)))
}

/// The first and the last covered microsecond of an entry, as words.
fn cover(file: &[u8], entry: usize) -> [u64; 2] {
    let at = 2 + ENTRY * entry;
    [at, at + 8].map(|at| u64::from_be_bytes(file[at..at + 8].try_into().expect("eight")))
}

/// What is wrong with an answer.
pub fn broken(call: &Call, answer: &Answer) -> Option<&'static str> {
    match call.function {
        Function::SeasonRead => {
            let behind = 8 * READ * answer.words[1] as usize;
            let (lent, left) = (call.slice("words").get(behind..), answer.lent[0].get(behind..));
            (left.is_none() || left != lent).then_some("a word written behind the entries")
        }
        Function::SeasonWrite => {
            let due = length(call.list("words").len() / WRITTEN);
            (answer.words[1] != due as u64).then_some("a length that is not the file's")
        }
        Function::SeasonCovering => {
            let at = i128::from(call.number("receipt_day") as i64) * DAY + i128::from(call.number("receipt_micro"));
            let [first, last] = [1, 2].map(|word| i128::from(answer.words[word] as i64));
            (!(first..=last).contains(&at)).then_some("a cover without the receipt")
        }
        _ => None,
    }
}

/// What was read is written as the same bytes.
fn written_again(file: &[u8], words: &[u64]) -> Again {
    let bodies: Vec<u64> = words.chunks(READ).flat_map(|entry| entry[READ - WRITTEN..].to_vec()).collect();
    let slices = vec![bytes_of(&bodies), vec![0x5a; file.len()]];
    let call = Call { function: Function::SeasonWrite, words: Vec::new(), slices };
    stays(call, &due(&[0, file.len() as u64], vec![file.to_vec()]), "what is read is not written again")
}

/// What was written is read as the same correlations, with the covers of the contents.
fn read_back(file: &[u8], bodies: &[u64]) -> Again {
    let words = bodies.chunks(WRITTEN).enumerate().flat_map(|(i, body)| [&cover(file, i), body].concat());
    let lent = bytes_of(&words.collect::<Vec<u64>>());
    let slices = vec![file.to_vec(), vec![0x5a; lent.len()]];
    let call = Call { function: Function::SeasonRead, words: Vec::new(), slices };
    stays(call, &due(&[0, (bodies.len() / WRITTEN) as u64], vec![lent]), "what is written does not read back")
}

/// The question with a receipt at an end of an entry that was read, where that is a time of the span.
fn asked(file: &[u8], [first, last]: [u64; 2]) -> Option<Again> {
    let at = [last, first].into_iter().map(|end| i128::from(end as i64)).find(|end| SPAN.contains(end))?;
    let words = vec![at.div_euclid(DAY) as u64, at.rem_euclid(DAY) as u64];
    let call = Call { function: Function::SeasonCovering, words, slices: vec![file.to_vec()] };
    Some(stays(call, &due(&[0, first, last], Vec::new()), "the question does not agree with the reader"))
}

/// The question with every byte of the bodies another.
fn without_bodies(call: &Call, answer: &Answer) -> Option<Again> {
    let mut call = call.clone();
    let bodies = 2 + ENTRY * count(&call.slices[0])?;
    call.slices[0].iter_mut().skip(bodies).for_each(|byte| *byte = !*byte);
    Some(stays(call, answer, "the question looks at a body"))
}

/// The question without an entry that it does not give.
fn without_one(call: &Call, answer: &Answer) -> Option<Again> {
    let file = &call.slices[0];
    let many = count(file).filter(|&many| answer.words[0] != refusal::SEASON_BROKEN && file.len() == length(many))?;
    let dropped = (0..many).rev().find(|&entry| answer.words[0] != 0 || cover(file, entry) != answer.words[1..3])?;
    let mut shorter = (many as u16 - 1).to_be_bytes().to_vec();
    for (place, entry) in (0..many).filter(|&entry| entry != dropped).enumerate() {
        shorter.extend(cover(file, entry).iter().flat_map(|end| end.to_be_bytes()));
        shorter.extend(((2 + ENTRY * (many - 1) + BODY * place) as u32).to_be_bytes());
    }
    shorter.resize(length(many - 1), 0);
    let call = Call { slices: vec![shorter], ..call.clone() };
    Some(stays(call, answer, "an entry more changes it"))
}

/// The further calls that follow from an answer.
pub fn again(call: &Call, answer: &Answer) -> Vec<Again> {
    let number = answer.words[0];
    match call.function {
        Function::SeasonRead if number == 0 => {
            let (file, words) = (call.slice("bytes"), words_of(&answer.lent[0]));
            let words = &words[..READ * answer.words[1] as usize];
            let middle = words.chunks(READ).nth(words.len() / READ / 2);
            let asked = middle.and_then(|entry| asked(file, [entry[0], entry[1]]));
            [written_again(file, words)].into_iter().chain(asked).collect()
        }
        Function::SeasonWrite if number == 0 => {
            vec![read_back(&answer.lent[0][..answer.words[1] as usize], &call.list("words"))]
        }
        Function::SeasonCovering => without_bodies(call, answer).into_iter().chain(without_one(call, answer)).collect(),
        _ => Vec::new(),
    }
}
