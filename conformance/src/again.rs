//! Announcements that come twice (document 02, A.1): ANSWERs of a ballot that has its answer. They are counted by sort, so that
//! none is left out.

use crate::log::{self, Field};
use crate::model::{Event, Play};
use crate::record::Record;
use std::collections::{BTreeMap, BTreeSet};

/// How often each sort was met.
#[derive(Default)]
pub struct Met(BTreeMap<&'static str, usize>);

impl Met {
    pub fn add(&mut self, sorts: impl IntoIterator<Item = &'static str>) {
        sorts.into_iter().for_each(|sort| *self.0.entry(sort).or_default() += 1);
    }

    pub fn times(&self, sort: &str) -> usize {
        self.0.get(sort).copied().unwrap_or(0)
    }

    /// Those that were met fewer than so many times.
    pub fn missing(&self, due: &[&'static str], least: usize) -> Vec<&'static str> {
        due.iter().copied().filter(|sort| self.times(sort) < least).collect()
    }

    /// A line for each, which begins with these words.
    pub fn lines(&self, words: &str, due: &[&str]) -> String {
        due.iter().map(|sort| format!("{words} {sort}: {}\n", self.times(sort))).collect()
    }
}

// ---- on a record, whoever wrote it

/// The answer again, and the other bit than the answer; of each, 0 and 1, cast by nobody and cast.
pub const ON_RECORDS: [&str; 8] = [
    "0 again, which nobody cast",
    "0 again",
    "1 again, which nobody cast",
    "1 again",
    "0 where 1 is the answer, which nobody cast",
    "0 where 1 is the answer",
    "1 where 0 is the answer, which nobody cast",
    "1 where 0 is the answer",
];

/// The sort of an event, with the record before it and its number.
pub fn on_record(record: &Record, event: Event, number: u8) -> Option<&'static str> {
    let Event::Answer { b, a } = event else {
        return None;
    };
    if ![0, 11].contains(&number) || !record.ballots[usize::from(b)].answered {
        return None;
    }
    let cast = record.ballots[usize::from(b)].was_cast(a);
    let sort = 4 * usize::from(number == 11) + 2 * usize::from(a) + usize::from(cast);
    Some(ON_RECORDS[sort])
}

// ---- in a list from an opening

const LOST: &str = "a bit again, when all who cast it are lost";
const TAKEN: &str = "a bit again, when a station has taken it";
const SPLIT: &str = "a bit again, when the other bit was cast too";
const OFTEN: &str = "a bit again, and not for the first time";
const OTHER: &str = "the other bit";
const OTHER_CAST: &str = "the other bit, which was cast";

pub const IN_LISTS: [&str; 8] = [ON_RECORDS[1], ON_RECORDS[3], LOST, TAKEN, SPLIT, OFTEN, OTHER, OTHER_CAST];

/// How often each ballot of a list was answered so far.
#[derive(Default)]
pub struct Announced(BTreeMap<u8, usize>);

impl Announced {
    /// Counts an event, with the history after it and its number.
    pub fn event(&mut self, play: &Play, event: Event, number: u8, met: &mut Met) {
        let Event::Answer { b, a } = event else {
            return;
        };
        let times = self.0.entry(b).or_default();
        match number {
            0 if *times > 0 => met.add(again(play, (b, a), *times)),
            11 => met.add(other(play, (b, a))),
            _ => {}
        }
        *times += usize::from(number == 0);
    }
}

/// All the sorts that an answer is of, which was accepted so many times before.
fn again(play: &Play, (b, a): (u8, u8), times: usize) -> Vec<&'static str> {
    let stations = || 0..play.n;
    let lost = stations().filter(|&s| play.voted(s).contains(&(b, a))).all(|s| play.lost.contains(&s));
    let sorts = [
        (true, ON_RECORDS[2 * usize::from(a) + 1]),
        (lost, LOST),
        (stations().any(|s| play.took(s).contains(&(b, a))), TAKEN),
        (play.was_cast(b, 1 - a), SPLIT),
        (times > 1, OFTEN),
    ];
    held(&sorts)
}

fn other(play: &Play, (b, a): (u8, u8)) -> Vec<&'static str> {
    held(&[(true, OTHER), (play.was_cast(b, a), OTHER_CAST)])
}

fn held(sorts: &[(bool, &'static str)]) -> Vec<&'static str> {
    sorts.iter().filter(|(holds, _)| *holds).map(|(_, sort)| *sort).collect()
}

// ---- in a log

/// Whether an ANSWER came again in the part of a log that was played: an accepted one after the first of its ballot.
pub fn in_log(played: &[u8]) -> bool {
    let mut answered = BTreeSet::new();
    let mut rest = played;
    while let Ok((field, taken)) = log::read(rest) {
        let again = match field {
            Field::Event(Event::Answer { b, .. }) => !answered.insert(b),
            _ => false,
        };
        if again {
            return true;
        }
        rest = &rest[taken..];
    }
    false
}
