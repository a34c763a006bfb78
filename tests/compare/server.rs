//! The library behind a pipe: serve.c says what is sent.

use crate::calls::{words_of, Answer, Call, ANSWER};
use std::io::{BufReader, Read, Write};
use std::process::{Child, ChildStdin, ChildStdout, Command, Stdio};

pub struct Server {
    input: Option<ChildStdin>,
    output: BufReader<ChildStdout>,
    child: Child,
}

impl Server {
    pub fn start(words: &[String]) -> Server {
        let mut child = Command::new(&words[0])
            .args(&words[1..])
            .stdin(Stdio::piped())
            .stdout(Stdio::piped())
            .spawn()
            .unwrap_or_else(|e| crate::stop(&format!("{}: {e}", words[0])));
        let input = child.stdin.take();
        let output = BufReader::new(child.stdout.take().expect("it is piped"));
        Server { input, output, child }
    }

    pub fn ask(&mut self, calls: &[Call]) -> Vec<Answer> {
        let mut sent = Vec::new();
        for call in calls {
            let mut send = |word: u64| sent.extend(word.to_le_bytes());
            send(call.function as u64);
            call.words.iter().for_each(|&word| send(word));
            call.function.shape().slices().zip(&call.slices).for_each(|((_, width, _), slice)| send((slice.len() / width) as u64));
            call.slices.iter().for_each(|slice| sent.extend(slice));
        }
        let mut input = self.input.take().expect("it is given back below");
        // A thread of its own sends, so that two full pipes cannot wait for each other.
        let sender = std::thread::spawn(move || input.write_all(&sent).map(|()| input));
        let answers = calls.iter().map(|call| self.answer(call)).collect();
        match sender.join().expect("it does not panic") {
            Ok(input) => self.input = Some(input),
            Err(e) => self.dead(&e),
        }
        answers
    }

    fn answer(&mut self, call: &Call) -> Answer {
        let words = words_of(&self.read(ANSWER * 8));
        let lent = call.lent().iter().map(|slice| self.read(slice.len())).collect();
        Answer { words, lent }
    }

    fn read(&mut self, count: usize) -> Vec<u8> {
        let mut bytes = vec![0; count];
        if let Err(e) = self.output.read_exact(&mut bytes) {
            self.dead(&e);
        }
        bytes
    }

    /// Status 3: a byte before a slice was written.
    fn dead(&mut self, e: &std::io::Error) -> ! {
        let status = self.child.wait();
        crate::stop(&format!("the server ended: {e}, {status:?}"))
    }
}
