//! What CLOSE is compared on by `closing_case`: records by hand, made up at random, and reached from an opening and
//! then changed.

use crate::closing;
use crate::closing_case::Case;
use crate::edges::bytes_of;
use crate::generate::{self, accepted, Rng};
use crate::log;
use crate::made_up;
use crate::model::Play;
use crate::record::{Ballot, Record, Stage, Station, IDLE, UNVOTED};
use crate::record_close::{close, Closing};
use Stage::*;

// ---- by hand from the document

fn record(n: u8, rule: u8, stations: &[(usize, Station)], ballots: &[(usize, Ballot)]) -> Record {
    let mut record = Record { n, rule, ..Record::blank() };
    stations.iter().for_each(|&(s, station)| record.stations[s] = station);
    ballots.iter().for_each(|&(b, ballot)| record.ballots[b] = ballot);
    record
}

/// Station 0 somewhere with the claim 4, which it holds.
fn at(stage: Stage, round: u8) -> Station {
    Station { stage, round, claim: 4, held: 1, ..IDLE }
}

fn cast(zero: u32, one: u32) -> Ballot {
    Ballot { cast: [zero, one], ..UNVOTED }
}

fn answered(answer: bool) -> Ballot {
    Ballot { answered: true, answer, ..UNVOTED }
}

/// Words, the record, the preferred bit, the room; the number, and the closing log where that is 0.
type Row = (&'static str, Record, u8, u16, u8, &'static str);

fn rows() -> Vec<Row> {
    let one = |rule, station| record(1, rule, &[(0, station)], &[]);
    let past_n = record(0, 2, &[(0, at(Waiting, 0))], &[]);
    let stay = record(3, 1, &[(0, Station { lost: true, ..at(Awaiting, 0) }), (2, at(Decided, 9))], &[]);
    let too_many = || record(33, 1, &[], &[]);
    let uncast = || record(2, 1, &[(0, at(Awaiting, 0))], &[]);
    let waits = record(2, 1, &[(0, at(Waiting, 1))], &[]);
    let alone = one(1, Station { held: 0, ..at(Waiting, 200) });
    let seeks = Station { word: 1, ..at(Seeking, 0) };
    let unfit = record(2, 1, &[(0, seeks)], &[]);
    let round_20 = Station { claim: 0, held: 0, ..at(Waiting, 20) };
    let all_steps = "deliver 0 0; step 0, 0; answer 40 0; step 0, 0, 0; answer 41 1; step 0";
    let a_step_more = record(1, 2, &[(0, round_20)], &[(41, answered(false))]);
    let last = |ballot| record(1, 2, &[(0, Station { word: 6, ..at(AwaitingFinish, 31) })], &[(63, ballot)]);
    vec![
        ("no stations under rule 2, and a waiting one past them", past_n, 1, 3, 0, ""),
        ("lost, idle and decided stations stay", stay, 0, 3, 0, ""),
        ("33 stations", too_many(), 1, 3, 42, ""),
        ("33 stations, and the preferred bit is 2", too_many(), 2, 3, 42, ""),
        ("the preferred bit is 2", one(1, at(Waiting, 0)), 2, 4, 10, ""),
        ("the preferred bit is 255, where 0 and 1 give 43", uncast(), 255, 3, 10, ""),
        ("nobody cast a bit in the ballot that is awaited", uncast(), 0, 9, 43, ""),
        ("nobody cast a bit, and there is no room", uncast(), 1, 0, 43, ""),
        ("it waits in round R under rule 1", waits, 0, 40, 43, ""),
        ("it waits in round 32 under rule 2", one(2, at(Waiting, 32)), 0, 40, 43, ""),
        ("it waits in round 200, alone under rule 1", alone, 0, 9, 0, "deliver 0 0; step 0"),
        ("no claim fits under rule 1", unfit, 0, 40, 43, ""),
        ("no claim fits under rule 2", one(2, seeks), 0, 60, 43, ""),
        ("it begins in round 20, claim 0: all 6 steps of its bound", one(2, round_20), 1, 39, 0, all_steps),
        ("in round 20 the finish ballot has answer 0: a step more", a_step_more, 1, 60, 43, ""),
        ("ballot 63 has answer 0", last(answered(false)), 1, 9, 43, ""),
        ("ballot 63 has no answer, and 0 alone was cast", last(cast(1, 0)), 1, 9, 43, ""),
        ("ballot 63 has no answer, and both bits were cast", last(cast(1, 1)), 1, 9, 0, "answer 63 1; step 0"),
        ("one byte too few", voted(), 1, 34, 30, ""),
        ("just as many bytes", voted(), 1, 35, 0, VOTED),
        ("some bytes more", voted(), 1, 40, 0, VOTED),
        ("numbers from n on hold, are held, and cast", from_n_on(), 1, 46, 0, FROM_N_ON),
        ("answers that nobody cast are taken, and two decide differently", unlike(), 0, 18, 0, UNLIKE),
    ]
}

/// Two stations have cast 0 and 1 in ballot 0, which is to be answered.
fn voted() -> Record {
    let second = Station { claim: 9, cursor: 1, held: 2, ..at(Awaiting, 0) };
    record(2, 1, &[(0, Station { claim: 7, ..at(Awaiting, 0) }), (1, second)], &[(0, cast(1, 2))])
}
const VOTED: &str = "deliver 1 0; answer 0 1; step 0; deliver 0 1; step 1, 0, 1, 1";

/// Of three stations, 0 holds numbers from n on; entry 3 holds the claim of 1, which is lost and holds that of 2, which
/// is idle; number 7 cast 0.
fn from_n_on() -> Record {
    let holds = Station { held: 0x8000_0021, ..at(Awaiting, 0) };
    let lost = Station { lost: true, held: 4, ..at(Waiting, 0) };
    let past_n = Station { held: 2, ..at(Waiting, 0) };
    record(3, 1, &[(0, holds), (1, lost), (3, past_n)], &[(0, cast(1 << 7, 0))])
}
const FROM_N_ON: &str = "answer 0 0; step 0, 0, 0, 0, 0; answer 1 0; step 0, 0, 0, 0";

/// Two stations await finish ballots of different rounds, each with the answer 1 and without a vote.
fn unlike() -> Record {
    let first = Station { word: 3, ..at(AwaitingFinish, 0) };
    let second = Station { word: 6, held: 2, ..at(AwaitingFinish, 1) };
    record(2, 2, &[(0, first), (1, second)], &[(1, answered(true)), (3, answered(true))])
}
const UNLIKE: &str = "deliver 1 0; step 0; deliver 0 1; step 1";

/// The cases that are stored. Each number and closing log beside a record has to be what `record_close.rs` says too.
pub fn by_hand() -> Vec<Case> {
    let case = |(words, record, preferred, room, number, log): Row| {
        let closed = close(&record, preferred, room.into());
        assert_eq!((closed.number, closed.bytes), (number, bytes_of(log)), "{words}");
        Case { words: words.to_string(), record, preferred, room }
    };
    rows().into_iter().map(case).collect()
}

// ---- at random

pub fn random(rng: &mut Rng) -> Case {
    let (words, record) = match rng.below(50) {
        0 => ("no stations", Record { n: 0, ..made_up::record(rng) }),
        1..=9 => ("made up", made_up::record(rng)),
        10..=19 => ("made up, few stations", few(rng)),
        20..=23 => ("a round at its edge", edge_round(rng)),
        24..=27 => ("one of the last ballots", last_ballot(rng)),
        28..=31 => ("reached", reached(rng)),
        _ => ("reached and changed", changed(rng)),
    };
    let any = rng.byte();
    let preferred = rng.pick(&[0, 0, 0, 0, 1, 1, 1, 1, 2, any]);
    Case { words: words.to_string(), room: room(rng, &record, preferred), record, preferred }
}

/// Around what the closing log needs, as far as it comes.
fn room(rng: &mut Rng, record: &Record, preferred: u8) -> u16 {
    let size = match preferred < 2 && !record.is_faulty() {
        true => Closing::of(record, preferred).0.bytes().len(),
        false => rng.below(40),
    };
    let more = size + 1 + rng.below(60);
    rng.pick(&[size, size, size, size.saturating_sub(1), more, 0]).min(65_535) as u16
}

/// Few stations that pass the record test, with short claims, words and rounds.
fn few(rng: &mut Rng) -> Record {
    let (n, rule) = (rng.pick(&[1, 1, 2, 2, 3, 4]), rng.pick(&[1, 2]));
    let mut record = Record { n, rule, ..made_up::record(rng) };
    for entry in record.stations.iter_mut().take(usize::from(n)) {
        *entry = made_up::sound(rng, n, rule);
        let low = rng.pick(&[0, 0, 0, 1]);
        (entry.claim, entry.word, entry.round) = (entry.claim % 8, entry.word % 4, entry.round.min(low));
    }
    record
}

/// A waiting station below n, or one past waiting, in a round near R or 32.
fn edge_round(rng: &mut Rng) -> Record {
    let mut record = few(rng);
    let s = rng.below(usize::from(record.n));
    let edge = if record.rule == 1 { record.n.next_power_of_two().trailing_zeros() as u8 } else { 32 };
    let any = rng.byte();
    let station = &mut record.stations[s];
    (station.lost, station.round) = (false, rng.pick(&[edge, edge.saturating_sub(1), edge + 1, 255, any]));
    station.stage = rng.pick(&[Waiting, Waiting, Waiting, Voting]);
    record
}

/// A station that awaits one of the last finish ballots, with any sets and marks.
fn last_ballot(rng: &mut Rng) -> Record {
    let mut record = few(rng);
    record.rule = 2;
    let (s, round) = (rng.below(usize::from(record.n)), rng.pick(&[30, 31, 31]));
    let station = &mut record.stations[s];
    (station.stage, station.round, station.lost) = (AwaitingFinish, round, false);
    let b = 2 * usize::from(round) + 1;
    record.ballots[b] = made_up::ballot(rng, record.n);
    record.ballots[b].answer &= rng.chance(50);
    record
}

/// A settlement reached from an opening. Its closing log by the record is the one by the history.
fn reached(rng: &mut Rng) -> Record {
    let (n, rule) = (rng.pick(&[1, 2, 2, 3, 3, 4, 5, 8, 17, 32]), rng.pick(&[1, 2]));
    let play = Play::open(n, rule).expect("a valid opening");
    let mut mix = generate::mix(rng, n);
    mix.claims.iter_mut().for_each(|claim| *claim %= 16);
    let events = accepted(n, rule, &generate::list(rng, play, &mix, 150));
    let some = rng.below(events.len() + 1);
    let log = log::written(n, rule, &events[..some]);
    let record = Record::run(&log, usize::MAX).0;
    for preferred in [0, 1] {
        let (_, by_history) = closing::of_log(&log, usize::MAX, preferred).expect("a closing log from an opening");
        let (by_record, end) = Closing::of(&record, preferred);
        assert_eq!((by_record.events, end), (by_history.events, Ok(())), "CLOSE by record and by history");
    }
    record
}

/// A settlement reached from an opening, with a few parts changed.
fn changed(rng: &mut Rng) -> Record {
    let mut record = reached(rng);
    for _ in 0..1 + rng.below(3) {
        change(rng, &mut record);
    }
    record
}

fn change(rng: &mut Rng, record: &mut Record) {
    let Record { n, rule, .. } = *record;
    let (any, s) = (rng.next() as u32, rng.below(usize::from(n)));
    let b = rng.below(usize::from(record.ballot_count()).clamp(1, 8));
    let station = &mut record.stations[s];
    match rng.below(9) {
        0 => *station = made_up::sound(rng, n, rule),
        1 => station.held = any,
        2 => station.word = any % 16,
        3 => station.cursor = rng.below(usize::from(n)) as u8,
        4 => station.claim = any % 64,
        5 => station.lost = !station.lost,
        6 => record.stations[usize::from(n) % 32] = made_up::sound(rng, n, rule),
        7 => made_up::break_one(rng, record),
        _ => record.ballots[b] = made_up::ballot(rng, n),
    }
}
