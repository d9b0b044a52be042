//! `./log show FILE`: a log in words.

use std::ffi::OsString;

use dagmuize::{Field, Fields, Played, Settlement};

use crate::verb::{input, Answer, Verb};

pub const VERB: Verb = Verb {
    name: "show",
    call: "show FILE",
    about: "      A line for each field of a log: the field in words, and after # the byte where it begins. Played from
      the opening on, the field that stops it has the number and what it says. Fields after it are shown, and
      not played. A field that does not read ends it: its byte, its number and what it says are the line on
      standard error, and the exit status is 1.
",
    takes: |words| words.len() == 1,
    run,
};

fn run(words: &[OsString]) -> Answer {
    match input(&words[0]) {
        Ok(log) => shown(&log),
        Err(wrong) => Answer::wrong(wrong),
    }
}

/// The lines of the fields that read, and what is wrong with the one that does not.
pub fn shown(log: &[u8]) -> Answer {
    // an empty log has no field to show, and is none
    if let Err(refusal) = Field::read(log) {
        return Answer::wrong(format!("byte 0: {refusal}"));
    }
    let played = Settlement::play(log, log.len());
    let mut answer = Answer::fine(Vec::new());
    for (place, read) in Fields::of(log) {
        match read {
            Ok(field) => answer.out.extend(line(place, &field, &played).into_bytes()),
            Err(refusal) => answer.wrong = Some(format!("byte {place}: {refusal}")),
        }
    }
    answer
}

fn line(place: usize, field: &Field, played: &Played) -> String {
    let words = field.to_string();
    match played.stopped {
        Some(refusal) if played.taken == place => format!("{words:<23} # {place}: stops with {refusal}\n"),
        _ => format!("{words:<23} # {place}\n"),
    }
}
