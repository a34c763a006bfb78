//! Inputs that are kept, as text: a line that names the function or the way of `desk`, and lines of words and bytes.

use crate::calls::Call;
use crate::desk::Run;
use crate::library::named;
use std::fs;
use std::path::{Path, PathBuf};

pub enum Kept {
    Call(Call),
    Desk(Run),
}

fn hex(bytes: &[u8]) -> String {
    bytes.iter().map(|b| format!("{b:02x}")).collect()
}

fn unhex(text: &str) -> Option<Vec<u8>> {
    text.as_bytes().chunks(2).map(|two| u8::from_str_radix(std::str::from_utf8(two).ok()?, 16).ok()).collect()
}

pub fn told(call: &Call) -> String {
    let words: Vec<String> = call.words.iter().map(|word| format!("{word:x}")).collect();
    let slices: String = call.slices.iter().map(|slice| format!("slice {}\n", hex(slice))).collect();
    format!("call {}\nwords {}\n{slices}", call.function.name(), words.join(" "))
}

pub fn told_desk(run: &Run) -> String {
    let sizes: Vec<String> = run.sizes.iter().map(usize::to_string).collect();
    format!("desk {}\nsizes {}\nbytes {}\n", run.way.name(), sizes.join(" "), hex(&run.input))
}

pub fn keep(folder: &Path, name: &str, text: &str) -> PathBuf {
    let path = folder.join(name);
    let written = fs::create_dir_all(folder).and_then(|()| fs::write(&path, text));
    written.unwrap_or_else(|e| crate::stop(&format!("{}: {e}", path.display())));
    path
}

fn next<'a>(lines: &mut impl Iterator<Item = &'a str>, word: &str) -> Option<&'a str> {
    let line = lines.next()?;
    line.strip_prefix(word).map(str::trim)
}

/// As many words and slices as the function takes.
fn parsed_call<'a>(name: &str, lines: &mut impl Iterator<Item = &'a str>) -> Option<Call> {
    let function = named(name)?;
    let words = next(lines, "words")?.split_whitespace().map(|word| u64::from_str_radix(word, 16).ok());
    let words: Vec<u64> = words.collect::<Option<_>>()?;
    let slices: Vec<Vec<u8>> = function.shape().slices().map(|_| unhex(next(lines, "slice")?)).collect::<Option<_>>()?;
    let whole = function.shape().slices().zip(&slices).all(|((_, width, _), slice)| slice.len() % width == 0);
    (whole && words.len() == function.shape().widths().len()).then_some(Call { function, words, slices })
}

fn parsed(text: &str) -> Option<Vec<Kept>> {
    let mut lines = text.lines();
    let mut all = Vec::new();
    while let Some(line) = lines.next() {
        let (kind, name) = line.split_once(' ')?;
        if kind == "call" {
            all.push(Kept::Call(parsed_call(name, &mut lines)?));
        } else {
            let sizes = next(&mut lines, "sizes")?.split_whitespace();
            let sizes = sizes.map(|size| size.parse().ok()).collect::<Option<_>>()?;
            let input = unhex(next(&mut lines, "bytes")?)?;
            all.push(Kept::Desk(Run { way: crate::desk::Way::named(name)?, sizes, input }));
        }
    }
    Some(all)
}

pub fn read(file: &str) -> Vec<Kept> {
    let text = fs::read_to_string(file).unwrap_or_else(|e| crate::stop(&format!("{file}: {e}")));
    parsed(&text).unwrap_or_else(|| crate::stop(&format!("{file} holds no calls")))
}
