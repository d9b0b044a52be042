//! `./log`, for people who keep logs. A verb is a file of its own and a row of `VERBS`.

mod ballots;
mod close;
mod make;
mod merge;
mod show;
#[cfg(test)]
mod tests;
mod verb;

use std::ffi::OsString;
use std::io::{self, Write};
use std::process::ExitCode;

use verb::{Answer, Verb};

const VERBS: [Verb; 5] = [show::VERB, make::VERB, ballots::VERB, close::VERB, merge::VERB];

const ABOUT: &str = "\
./log VERB ..: shows, makes, closes and merges logs of events, and shows who voted. A refusal's number is said with its words.
";

const TEXT: &str = "\
FILE - is standard input.

The text has a field on each line, and from # on a comment:
  open 2 1        two stations under rule 1
  claim 0 7       station 0 puts in claim 7
  deliver 1 0     the claim of station 1 reaches station 0
  step 0          station 0 does its next thing
  lose 1          station 1 is lost
  answer 0 1      ballot 0 settles on bit 1
  note \"hi\"       a note of at most 64 bytes; \\n, \\\", \\\\ and \\xNN stand for a byte

Exit status: 0; 1 and a line on standard error for a log, a text or a file that will not do; 2 for a bad call.
";

fn main() -> ExitCode {
    let words: Vec<OsString> = std::env::args_os().skip(1).collect();
    if words.iter().any(|word| word == "--help") {
        return finish(Answer::fine(help()));
    }
    let Some((name, rest)) = words.split_first() else {
        return bad_call(&VERBS);
    };
    match VERBS.iter().find(|verb| name == verb.name) {
        None => bad_call(&VERBS),
        Some(verb) if (verb.takes)(rest) => finish((verb.run)(rest)),
        Some(verb) => bad_call(std::slice::from_ref(verb)),
    }
}

fn help() -> String {
    let verbs: String = VERBS.iter().map(|verb| format!("  ./log {}\n{}", verb.call, verb.about)).collect();
    format!("{ABOUT}\n{verbs}\n{TEXT}")
}

fn bad_call(verbs: &[Verb]) -> ExitCode {
    let calls: Vec<String> = verbs.iter().map(|verb| format!("./log {}", verb.call)).collect();
    eprintln!("usage: {}; ./log --help says more", calls.join(", "));
    ExitCode::from(2)
}

/// Writes what a verb answers, and then says what is wrong.
fn finish(answer: Answer) -> ExitCode {
    let mut out = io::stdout().lock();
    let wrong = match out.write_all(&answer.out).and_then(|()| out.flush()) {
        // nobody reads on: the status that a shell gives to a program which that signal ends, and no line
        Err(error) if error.kind() == io::ErrorKind::BrokenPipe => return ExitCode::from(141),
        Err(error) => Some(format!("cannot write: {error}")),
        Ok(()) => answer.wrong,
    };
    let Some(wrong) = wrong else {
        return ExitCode::SUCCESS;
    };
    eprintln!("log: {wrong}");
    ExitCode::FAILURE
}
