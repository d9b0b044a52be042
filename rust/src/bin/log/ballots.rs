//! `./log ballots FILE`: who voted which way.

use std::ffi::OsString;

use dagmuize::{Field, Settlement, Tally, Voters};

use crate::verb::{input, Answer, Verb};

pub const VERB: Verb = Verb {
    name: "ballots",
    call: "ballots FILE",
    about:
        "      Who voted which way in a log: a line for each ballot that some station voted in, with the stations that
      cast 0, those that cast 1, in brackets how many, and the answer. - stands for none. A log that stops early
      has its ballots as they are there: the byte, the number and what it says are the line on standard error,
      and the exit status is 1.
",
    takes: |words| words.len() == 1,
    run,
};

fn run(words: &[OsString]) -> Answer {
    match input(&words[0]) {
        Ok(log) => voted(&log),
        Err(wrong) => Answer::wrong(wrong),
    }
}

/// A line for each ballot with a vote, and what stopped the log before its end.
pub fn voted(log: &[u8]) -> Answer {
    // as show says it
    if let Err(refusal) = Field::read(log) {
        return Answer::wrong(format!("byte 0: {refusal}"));
    }
    let played = Settlement::play(log, log.len());
    let mut answer = Answer::fine(lines(&played.settlement));
    answer.wrong = played.stopped.map(|refusal| format!("byte {}: {refusal}", played.taken));
    answer
}

/// The lines, their columns as wide as they need.
fn lines(settlement: &Settlement) -> String {
    let tallies = (0..=u8::MAX).map_while(|b| Some((b, settlement.look_ballot(b).ok()?)));
    let rows: Vec<[String; 4]> = tallies.filter(|(_, tally)| tally.votes() > 0).map(row).collect();
    let width = |column: usize| rows.iter().map(|row| row[column].len()).max().unwrap_or(0);
    let [first, second, third] = [0, 1, 2].map(width);
    let line =
        |[b, zero, one, answer]: &[String; 4]| format!("{b:<first$}  {zero:<second$}  {one:<third$}  {answer}\n");
    rows.iter().map(line).collect()
}

fn row((b, tally): (u8, Tally)) -> [String; 4] {
    let answer = tally.answer.map_or("-".to_string(), |one| u8::from(one).to_string());
    [format!("ballot {b}"), cast(0, tally.zero), cast(1, tally.one), format!("answer {answer}")]
}

/// Who cast a bit, and how many they are.
fn cast(bit: u8, voters: Voters) -> String {
    let stations = if voters.is_empty() { "-".to_string() } else { voters.to_string() };
    format!("cast {bit}: {stations} ({})", voters.count())
}
