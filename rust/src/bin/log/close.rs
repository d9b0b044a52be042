//! `./log close FILE [0|1]`: a log brought to its end.

use std::ffi::OsString;

use dagmuize::{closing, Settlement};

use crate::verb::{input, Answer, Verb};

pub const VERB: Verb = Verb {
    name: "close",
    call: "close FILE [0|1]",
    about:
        "      The log and after it its closing log, on standard output: the events that bring every live station which
      has claimed to its decision. A ballot without an answer gets the preferred bit, 1 if none is given, where
      some station cast it, else the other bit. A log that stops early is not closed: the byte, the number and
      what it says are the line on standard error, no byte is written, and the exit status is 1. Write it into
      another file: a shell empties the one that it writes before this reads it.
",
    takes: |words| matches!(words, [_]) || matches!(words, [_, word] if bit(word).is_some()),
    run,
};

/// The bit that is preferred where none is given.
const PREFERRED: u8 = 1;

fn bit(word: &OsString) -> Option<u8> {
    ["0", "1"].iter().zip(0..).find(|(name, _)| word == *name).map(|(_, bit)| bit)
}

fn run(words: &[OsString]) -> Answer {
    match input(&words[0]) {
        Ok(log) => closed(log, words.get(1).and_then(bit).unwrap_or(PREFERRED)),
        Err(wrong) => Answer::wrong(wrong),
    }
}

/// The log and its closing log, or what stops the log before its end.
pub fn closed(mut log: Vec<u8>, preferred: u8) -> Answer {
    match closing(&log, preferred) {
        Ok(closing) => {
            log.extend(closing);
            Answer::fine(log)
        }
        Err(refusal) => Answer::wrong(format!("byte {}: {refusal}", Settlement::play(&log, log.len()).taken)),
    }
}
