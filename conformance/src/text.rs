//! What the program settle prints (01, "The program settle").

use crate::log::{run, Counts};
use crate::model::{Play, Stage};
use crate::record::{self, Record};

/// The longest log that is played, and the most events.
pub const MOST: usize = 65_536;

pub fn settle(log: &[u8]) -> String {
    if log.len() > MOST {
        return "too long\n".to_string();
    }
    let outcome = run(log, MOST);
    report(outcome.play.as_ref(), outcome.counts)
}

/// The lines for a settlement, or for the blank one.
pub fn report(play: Option<&Play>, counts: Counts) -> String {
    let Some(play) = play else {
        return first_line(0, 1, 0, counts);
    };
    let first = first_line(play.n, play.rule_number(), play.ballots(), counts);
    let stations = (0..play.n).map(|s| station_line(play, s));
    std::iter::once(first).chain(stations).collect()
}

fn first_line(stations: u8, rule: u8, ballots: u8, counts: Counts) -> String {
    let settlement = format!("stations {stations} rule {rule} ballots {ballots}");
    let Counts { events, taken, status } = counts;
    format!("{settlement} events {events} taken {taken} status {status}\n")
}

fn station_line(play: &Play, s: u8) -> String {
    let decision = play.decision(s).map_or("-".to_string(), |v| v.to_string());
    let stage = stage_name(play.stage(s));
    let votes = play.voted(s).len();
    let mark = if play.lost.contains(&s) { "lost" } else { "live" };
    format!("{s} {stage} {decision} votes {votes} {mark}\n")
}

fn stage_name(stage: Stage) -> &'static str {
    match stage {
        Stage::Idle => "idle",
        Stage::Waiting => "waiting",
        Stage::Voting(_) => "voting",
        Stage::Awaiting(_) => "awaiting",
        Stage::Seeking => "seeking",
        Stage::Decided => "decided",
    }
}

/// The same lines for a record, whoever wrote it.
pub fn of_record(record: &Record, counts: Counts) -> String {
    let first = first_line(record.n, record.rule, record.ballot_count(), counts);
    let stations = (0..record.n).map(|s| entry_line(record, s));
    std::iter::once(first).chain(stations).collect()
}

fn entry_line(record: &Record, s: u8) -> String {
    let (station, look) = (record.stations[usize::from(s)], record.look(s));
    let decision = if look.decided { look.claim.to_string() } else { "-".to_string() };
    let mark = if station.lost { "lost" } else { "live" };
    format!("{s} {} {decision} votes {} {mark}\n", entry_stage(station.stage), look.votes)
}

fn entry_stage(stage: record::Stage) -> &'static str {
    use record::Stage::*;
    match stage {
        Idle => "idle",
        Waiting => "waiting",
        Voting | VotingFinish => "voting",
        Awaiting | AwaitingFinish => "awaiting",
        Seeking => "seeking",
        Decided => "decided",
    }
}
