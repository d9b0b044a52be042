//! Who voted which way (document 02, A.2): a look at a ballot by the history and by the record, and the sorts of ballots and votes
//! that were met, so that none is left out.

use crate::again::Met;
use crate::model::{Event, Play, Votes};
use crate::record::{bit, Ballot, Record, Stage, Station, Tally};
use std::collections::BTreeSet;

// ---- in a list from an opening

fn mask(stations: &BTreeSet<u8>) -> u32 {
    stations.iter().map(|s| 1 << s).sum()
}

/// A look at a ballot as the history tells it.
pub fn told(play: &Play, b: u8) -> Tally {
    match play.look_ballot(b) {
        Err(number) => Tally::refused(number),
        Ok(Votes { voters, answer }) => Tally {
            number: 0,
            cast: voters.each_ref().map(mask),
            counts: voters.each_ref().map(|stations| stations.len() as u8),
            answered: answer.is_some(),
            answer: answer == Some(1),
        },
    }
}

/// A look at a ballot of the record that a list leaves is the history's. A station is in the set of a bit exactly when it cast
/// that bit there, so only stations are in the sets; the sets never meet, and have all who voted in the ballot between them.
pub fn check(play: &Play, record: &Record, b: u8) -> Result<(), String> {
    let tally = record.look_ballot(b);
    ensure(tally == told(play, b), b, || format!("{tally:?} by the record, {:?} by the history", told(play, b)))?;
    let cast = |s: u8| -> Vec<u8> { play.voted(s).into_iter().filter(|vote| vote.0 == b).map(|vote| vote.1).collect() };
    let cast: Vec<Vec<u8>> = (0..32).map(cast).collect();
    for (s, bits) in (0..32).zip(&cast) {
        let is_in = |a: u8| bit(tally.cast[usize::from(a)], s);
        ensure((0..2).all(|a| is_in(a) == bits.contains(&a)), b, || format!("station {s} cast {bits:?}: {tally:?}"))?;
    }
    let [zero, one] = tally.cast;
    let voted = cast.iter().filter(|bits| !bits.is_empty()).count();
    ensure(zero & one == 0, b, || format!("the sets meet: {tally:?}"))?;
    ensure(tally.counts.map(usize::from).iter().sum::<usize>() == voted, b, || format!("{voted} voted: {tally:?}"))
}

fn ensure(holds: bool, b: u8, why: impl Fn() -> String) -> Result<(), String> {
    match holds {
        true => Ok(()),
        false => Err(format!("ballot {b}: {}", why())),
    }
}

/// The ballots that may have changed: the last ones that a station voted in, and that of an ANSWER.
pub fn touched(play: &Play, event: Event) -> Option<u8> {
    match event {
        Event::Step { s } => play.voted(s).last().map(|(b, _)| *b),
        Event::Answer { b, .. } => Some(b),
        _ => None,
    }
}

// ---- on a record, whoever wrote it

const NOBODY: &str = "no votes";
const ONE: &str = "one vote";
const APART: &str = "both bits cast, the sets apart";
const MEET: &str = "a station in both sets";
const FULL: &str = "a set of all 32";
const BEYOND: &str = "a set with numbers from n on";
const ZERO: &str = "answer 0";
const ANSWER: &str = "answer 1";
const NO_ANSWER: &str = "no answer";
const UNCAST: &str = "an answer that nobody cast";
const MARK: &str = "no answer, though the answer's mark is 1";

const LOOKS: [&str; 11] = [NOBODY, ONE, APART, MEET, FULL, BEYOND, ZERO, ANSWER, NO_ANSWER, UNCAST, MARK];

/// A station's number is n or more.
fn beyond(n: u8, set: u32) -> bool {
    (n..32).any(|s| bit(set, s))
}

/// The sorts that a ballot is of.
pub fn looked_at(record: &Record, b: u8) -> Vec<&'static str> {
    let Ballot { cast: [zero, one], answered, answer } = record.ballots[usize::from(b)];
    let votes = zero.count_ones() + one.count_ones();
    let sorts = [
        (votes == 0, NOBODY),
        (votes == 1, ONE),
        (zero != 0 && one != 0 && zero & one == 0, APART),
        (zero & one != 0, MEET),
        (zero == u32::MAX || one == u32::MAX, FULL),
        (beyond(record.n, zero | one), BEYOND),
        (answered && !answer, ZERO),
        (answered && answer, ANSWER),
        (!answered, NO_ANSWER),
        (answered && [zero, one][usize::from(answer)] == 0, UNCAST),
        (!answered && answer, MARK),
    ];
    held(&sorts)
}

const OTHER: &str = "with the cursor at another station";
const ALREADY: &str = "of a station that is in the set already";
const BOTH: &str = "of a station that is in the other set";
const FIRST: &str = "into an empty set";
const MORE: &str = "into a set that has others";
const ONLY_BEYOND: &str = "that only numbers from n on cast";

const VOTES: [&str; 5] = [OTHER, ALREADY, BOTH, FIRST, MORE];
const ANSWERS: [&str; 1] = [ONLY_BEYOND];

/// A line for each sort.
pub fn lines(met: &Met) -> String {
    let looks = met.lines("a look at a ballot with", &LOOKS);
    looks + &met.lines("a vote", &VOTES) + &met.lines("ANSWER of a bit", &ANSWERS)
}

/// The sorts that were met fewer than so many times.
pub fn missing(met: &Met, least: usize) -> Vec<&'static str> {
    met.missing(&[&LOOKS[..], &VOTES, &ANSWERS].concat(), least)
}

/// The sorts of an accepted event that votes, or answers for the first time, with the records before and after it.
pub fn played(before: &Record, after: &Record, event: Event) -> Vec<&'static str> {
    match event {
        Event::Step { s } => voted(before, after, s),
        Event::Answer { b, a } => {
            let Ballot { cast, answered, .. } = before.ballots[usize::from(b)];
            let stations = (0..before.n).any(|s| bit(cast[usize::from(a)], s));
            held(&[(!answered && !stations, ONLY_BEYOND)])
        }
        _ => Vec::new(),
    }
}

fn voted(before: &Record, after: &Record, s: u8) -> Vec<&'static str> {
    let Station { stage, cursor, round, .. } = before.stations[usize::from(s)];
    if !matches!(stage, Stage::Voting | Stage::VotingFinish) {
        return Vec::new();
    }
    let finish = usize::from(stage == Stage::VotingFinish);
    let b = usize::from(round) * usize::from(before.rule) + finish;
    let (was, is) = (before.ballots[b].cast, after.ballots[b].cast);
    let added = (0..2).find(|&a| was[a] != is[a]);
    let set = added.map_or(0, |a| was[a]);
    held(&[
        (cursor != s, OTHER),
        (added.is_none(), ALREADY),
        (added.is_some_and(|a| bit(was[1 - a], s)), BOTH),
        (added.is_some() && set == 0, FIRST),
        (set != 0, MORE),
    ])
}

fn held(sorts: &[(bool, &'static str)]) -> Vec<&'static str> {
    sorts.iter().filter(|(holds, _)| *holds).map(|(_, sort)| *sort).collect()
}
