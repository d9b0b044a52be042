//! `./log merge FIRST SECOND`: two logs made one.

use std::ffi::{OsStr, OsString};

use dagmuize::merging::{fault, station_in_both, stuck};
use dagmuize::{merge, Field, Refusal};

use crate::verb::{input, Answer, Verb};

pub const VERB: Verb = Verb {
    name: "merge",
    call: "merge FIRST SECOND",
    about: "      One log out of two with the same opening, on standard output, where each kiosk kept a log of its own
      stations: the events of both without notes, in each log's own order. Wherever the first log's next event is
      accepted it goes next, else the second log's. Where that cannot be, the number and what it says are the line
      on standard error, with the file and the byte of a field that does not read, the station that has events in
      both, or where both logs are stuck; no byte is written, and the exit status is 1. One of them may be -. Write
      it into another file: a shell empties the one that it writes before this reads it.
",
    takes: |words| matches!(words, [first, second] if first != "-" || second != "-"),
    run,
};

/// A log and the name of its file.
pub struct Named {
    pub name: String,
    pub log: Vec<u8>,
}

fn run(words: &[OsString]) -> Answer {
    match named(&words[0]).and_then(|first| Ok([first, named(&words[1])?])) {
        Ok(logs) => merged(&logs),
        Err(wrong) => Answer::wrong(wrong),
    }
}

fn named(file: &OsStr) -> Result<Named, String> {
    let name = if file == "-" { "standard input".into() } else { file.to_string_lossy() };
    Ok(Named { log: input(file)?, name: name.into_owned() })
}

/// The one log of two, or why there is none.
pub fn merged(logs: &[Named; 2]) -> Answer {
    match merge(&logs[0].log, &logs[1].log) {
        Ok(log) => Answer::fine(log),
        Err(refusal) => Answer::wrong(logs.iter().find_map(unread).unwrap_or_else(|| apart(refusal, logs))),
    }
}

/// Where a log does not read, and why.
fn unread(log: &Named) -> Option<String> {
    let (place, refusal) = fault(&log.log)?;
    Some(format!("{}: byte {place}: {refusal}", log.name))
}

/// Why two logs that read are not made one.
fn apart(refusal: Refusal, [first, second]: &[Named; 2]) -> String {
    match (refusal.number(), station_in_both(&first.log, &second.log)) {
        (60, _) => format!("{refusal}: {}, {}", opening(first), opening(second)),
        (61, Some(station)) => format!("61: station {station} has events in both logs"),
        (62, _) => {
            let [one, two] = stuck(&first.log, &second.log);
            let stops: Vec<String> = [stop(first, one), stop(second, two)].into_iter().flatten().collect();
            format!("{refusal}: {}", stops.join("; "))
        }
        _ => refusal.to_string(),
    }
}

fn opening(log: &Named) -> String {
    Field::read(&log.log).map_or_else(|refusal| refusal.to_string(), |(field, _)| format!("{} has {field}", log.name))
}

/// Where a log that is not at its end is stuck.
fn stop(log: &Named, at: Option<(usize, Refusal)>) -> Option<String> {
    at.map(|(place, refusal)| format!("{} stops at byte {place} with {refusal}", log.name))
}
