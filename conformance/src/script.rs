//! Scripts for the program `lent_case`, and what document 01 says that it must write.
//! A command is written as a field of a log is: tag, length, body. A note is written out as it stands: with it the program says what was
//! called, and then the answer's numbers, each after a blank.

use crate::compared::first_difference;
use crate::log::{self, Field};
use crate::model::{length, Event};
use crate::record::{Ballot, Record, Station, Tally, STAGES};
use crate::voters;

#[derive(Clone, Debug)]
pub enum Command {
    Open {
        n: u8,
        rule: u8,
    },
    Play(Event),
    Look(u8),
    LookBallot(u8),
    /// Made up: the number of stations and the rule, a station's entry, a ballot's.
    MakeHead {
        n: u8,
        rule: u8,
    },
    MakeStation(u8, Station),
    MakeBallot(u8, Ballot),
    ShowHead,
    ShowStation(u8),
    ShowBallot(u8),
    Body(Vec<u8>),
    Read(Vec<u8>),
    Rest {
        taken: u32,
        log: Vec<u8>,
    },
    Run {
        limit: u32,
        log: Vec<u8>,
    },
    Length(u32),
    Compare {
        k: u8,
        a: u32,
        b: u32,
    },
}

use Command::*;

/// The longest script that the program reads.
pub const ROOM: usize = 65_536;

fn stage_number(station: &Station) -> u8 {
    STAGES.iter().position(|stage| *stage == station.stage).unwrap_or(0) as u8
}

fn framed(tag: u8, body: &[u8]) -> Vec<u8> {
    let length = (body.len() as u16).to_be_bytes();
    [&[tag][..], &length, body].concat()
}

fn entry_bytes(s: u8, station: &Station) -> Vec<u8> {
    let Station { lost, cursor, round, held, claim, word, decision, .. } = *station;
    let mut bytes = vec![s, stage_number(station), u8::from(lost), cursor, round];
    bytes.extend([held, claim, word, decision].iter().flat_map(|x| x.to_be_bytes()));
    bytes
}

/// Its marks in one byte, the answer's above that of being answered; the two sets.
fn ballot_bytes(b: u8, ballot: &Ballot) -> Vec<u8> {
    let Ballot { cast, answered, answer } = *ballot;
    let mut bytes = vec![b, u8::from(answered) + 2 * u8::from(answer)];
    bytes.extend(cast.iter().flat_map(|set| set.to_be_bytes()));
    bytes
}

/// Numbers, each after a blank.
fn row(numbers: &[u64]) -> String {
    numbers.iter().map(|x| format!(" {x}")).collect()
}

fn part(bytes: &[u8]) -> String {
    let hex: String = bytes.iter().map(|byte| format!("{byte:02x}")).collect();
    format!(" {} {hex}", bytes.len())
}

impl Command {
    pub fn bytes(&self) -> Vec<u8> {
        match self {
            Open { n, rule } => Field::Opening { n: *n, rule: *rule }.bytes(),
            Play(event) => Field::Event(*event).bytes(),
            Look(s) => framed(b'K', &[*s]),
            LookBallot(b) => framed(b'L', &[*b]),
            MakeHead { n, rule } => framed(b'N', &[*n, *rule]),
            MakeStation(s, station) => framed(b'S', &entry_bytes(*s, station)),
            MakeBallot(b, ballot) => framed(b'B', &ballot_bytes(*b, ballot)),
            ShowHead => framed(b'H', &[]),
            ShowStation(s) => framed(b'E', &[*s]),
            ShowBallot(b) => framed(b'V', &[*b]),
            Body(bytes) => framed(b'b', bytes),
            Read(bytes) => framed(b'd', bytes),
            Rest { taken, log } => framed(b't', &[&taken.to_be_bytes()[..], log].concat()),
            Run { limit, log } => framed(b'r', &[&limit.to_be_bytes()[..], log].concat()),
            Length(v) => framed(b'l', &v.to_be_bytes()),
            Compare { k, a, b } => framed(b'c', &[&[*k][..], &a.to_be_bytes(), &b.to_be_bytes()].concat()),
        }
    }

    /// What is called, in words; a colon where an answer follows.
    pub fn words(&self) -> String {
        match self {
            Open { n, rule } => format!("open {n} {rule}:"),
            Play(event) => format!("{}:", event_words(*event)),
            Look(s) => format!("look {s}:"),
            LookBallot(b) => format!("tally {b}:"),
            MakeHead { n, rule } => format!("made up: stations {n} rule {rule}"),
            MakeStation(s, station) => format!("made up: station {s}{}", station_words(station)),
            MakeBallot(b, ballot) => format!("made up: ballot {b}{}", row(&ballot_numbers(ballot))),
            ShowHead => "head:".to_string(),
            ShowStation(s) => format!("station {s}:"),
            ShowBallot(b) => format!("ballot {b}:"),
            Body(bytes) => format!("body of{}:", part(bytes)),
            Read(bytes) => format!("read{}:", part(bytes)),
            Rest { taken, log } => format!("rest past {taken} of{}:", part(log)),
            Run { limit, .. } => format!("run with limit {limit}:"),
            Length(v) => format!("length of {v}:"),
            Compare { k, a, b } => format!("compare {a} {b} up to {k}:"),
        }
    }

    /// The numbers that it answers, by document 01, and the record as it is afterwards.
    pub fn answer(&self, record: &mut Record) -> String {
        match self {
            Open { n, rule } => {
                let (number, opened) = Record::open(*n, *rule);
                *record = opened;
                row(&[number.into()])
            }
            Play(event) => row(&[record.event(*event).into()]),
            Look(s) => {
                let look = record.look(*s);
                row(&[look.number.into(), look.decided.into(), look.claim.into(), look.votes.into()])
            }
            LookBallot(b) => row(&tally_numbers(record.look_ballot(*b))),
            MakeHead { n, rule } => {
                (record.n, record.rule) = (*n, *rule);
                String::new()
            }
            MakeStation(s, station) => {
                record.stations[usize::from(*s)] = *station;
                String::new()
            }
            MakeBallot(b, ballot) => {
                record.ballots[usize::from(*b)] = *ballot;
                String::new()
            }
            ShowHead => row(&[record.n.into(), record.rule.into()]),
            ShowStation(s) => row(&station_numbers(&record.stations[usize::from(*s)])),
            ShowBallot(b) => row(&ballot_numbers(&record.ballots[usize::from(*b)])),
            Body(bytes) => part(&body(bytes)),
            Read(bytes) => read(bytes),
            Rest { taken, log } => part(log.get(*taken as usize..).unwrap_or(&[])),
            Run { limit, log } => run(log, *limit as usize, record),
            Length(v) => row(&[length(*v) as u64]),
            Compare { k, a, b } => first_difference(*k, *a, *b).map_or(row(&[0]), |place| row(&[1, place.into()])),
        }
    }
}

fn event_words(event: Event) -> String {
    match event {
        Event::Claim { s, v } => format!("claim {s} {v}"),
        Event::Deliver { t, s } => format!("deliver {t} {s}"),
        Event::Step { s } => format!("step {s}"),
        Event::Lose { s } => format!("lose {s}"),
        Event::Answer { b, a } => format!("answer {b} {a}"),
    }
}

fn station_words(station: &Station) -> String {
    let Station { stage, lost, cursor, round, held, claim, word, decision } = station;
    let mark = if *lost { "lost" } else { "live" };
    format!(" {stage:?} {mark} j {cursor} k {round} held {held} claim {claim} d {word} decision {decision}")
}

fn station_numbers(station: &Station) -> [u64; 8] {
    let Station { lost, cursor, round, held, claim, word, decision, .. } = *station;
    let stage = stage_number(station);
    [stage.into(), lost.into(), cursor.into(), round.into(), held.into(), claim.into(), word.into(), decision.into()]
}

fn ballot_numbers(ballot: &Ballot) -> [u64; 4] {
    let Ballot { cast: [zero, one], answered, answer } = *ballot;
    [zero.into(), one.into(), answered.into(), answer.into()]
}

fn tally_numbers(tally: Tally) -> [u64; 7] {
    let Tally { number, cast: [zero, one], counts: [zeros, ones], answered, answer } = tally;
    [number.into(), zero.into(), one.into(), zeros.into(), ones.into(), answered.into(), answer.into()]
}

/// BODY: the body's bytes, "or an empty part at the start where READ refuses".
fn body(bytes: &[u8]) -> Vec<u8> {
    log::read(bytes).map_or(Vec::new(), |(_, taken)| bytes[3..taken].to_vec())
}

/// READ: the tag, the body's numbers (a byte, another, a claim) and the bytes taken; refused, the number.
fn read(bytes: &[u8]) -> String {
    let (field, taken) = match log::read(bytes) {
        Ok(found) => found,
        Err(number) => return row(&[number.into()]),
    };
    let (first, second, claim) = match field {
        Field::Opening { n, rule } => (n, rule, 0),
        Field::Event(Event::Claim { s, v }) => (s, 0, v),
        Field::Event(Event::Deliver { t, s }) => (t, s, 0),
        Field::Event(Event::Step { s } | Event::Lose { s }) => (s, 0, 0),
        Field::Event(Event::Answer { b, a }) => (b, a, 0),
        Field::Note(_) => (0, 0, 0),
    };
    row(&[field.tag().into(), first.into(), second.into(), claim.into(), taken as u64])
}

/// RUN. Its record and its counts are also those of the history in `model.rs`.
fn run(log: &[u8], limit: usize, record: &mut Record) -> String {
    let (left, counts) = Record::run(log, limit);
    let history = log::run(log, limit);
    assert_eq!(counts, history.counts, "RUN by record and by history");
    let ballots = history.play.iter().flat_map(|play| (0..=64).map(move |b| (play, b)));
    ballots.for_each(|(play, b)| voters::check(play, &left, b).expect("a look at a ballot by record and by history"));
    for s in 0..left.n {
        let look = left.look(s);
        let play = history.play.as_ref().expect("stations are opened");
        let decision = play.decision(s);
        let told = (look.number, look.decided, look.claim, usize::from(look.votes));
        assert_eq!(told, (0, decision.is_some(), decision.unwrap_or(0), play.voted(s).len()), "LOOK {s} after RUN");
    }
    *record = left;
    row(&[counts.events as u64, counts.taken as u64, counts.status.into()])
}

/// A script, and the text that the program has to write for it.
pub struct Script {
    pub bytes: Vec<u8>,
    pub text: String,
    /// The commands by their lines of the text, each with the record before it.
    pub lines: Vec<(String, Record)>,
    pub record: Record,
    /// Whether each command is named in the text.
    named: bool,
}

impl Script {
    pub fn new(named: bool) -> Script {
        Script { bytes: Vec::new(), text: String::new(), lines: Vec::new(), record: Record::blank(), named }
    }

    /// Words that the program writes out; a longer text than a note may have is no note of a log.
    pub fn say(&mut self, words: &str) {
        self.bytes.extend(framed(0x30, words.as_bytes()));
        self.text.push_str(words);
        let ends = words.matches('\n').count();
        self.lines.extend((0..ends).map(|_| (words.trim().to_string(), self.record.clone())));
    }

    /// One command on a line of its own, and the answer by document 01.
    pub fn call(&mut self, command: Command) -> String {
        if self.named {
            self.say(&command.words());
        }
        let before = self.record.clone();
        self.bytes.extend(command.bytes());
        let answer = command.answer(&mut self.record);
        self.text.push_str(&answer);
        self.say("\n");
        *self.lines.last_mut().expect("a line was just ended") = (format!("{command:?}"), before);
        answer
    }

    /// The head and every entry.
    pub fn show_record(&mut self) {
        self.call(ShowHead);
        (0..32).for_each(|s| drop(self.call(ShowStation(s))));
        (0..64).for_each(|b| drop(self.call(ShowBallot(b))));
    }

    pub fn has_room(&self, bytes: usize) -> bool {
        self.bytes.len() + bytes <= ROOM
    }
}
