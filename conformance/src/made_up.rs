//! Random scripts for `lent_case`: records made up around every clause of the record test, events and LOOKs on them, and logs under small limits.

use crate::again::{self, Met};
use crate::compared;
use crate::generate::{self, Rng};
use crate::log::{written, Field};
use crate::model::{ceil_log2, Event};
use crate::record::{Ballot, Record, Stage, Station, STAGES};
use crate::script::{Command, Script};
use crate::voters;
use std::collections::BTreeMap;

/// How often each number was answered.
pub type Numbers = BTreeMap<usize, usize>;

/// The numbers of events, LOOKs and looks at ballots, RUN's statuses, answers that came twice, and the RUNs of logs with one;
/// the sorts of ballots and votes, and of comparisons.
#[derive(Default)]
pub struct Counts {
    pub events: Numbers,
    pub looks: Numbers,
    pub tallies: Numbers,
    pub runs: Numbers,
    pub again: Met,
    pub runs_again: usize,
    pub voters: Met,
    pub compared: Met,
}

pub fn script(rng: &mut Rng, counts: &mut Counts) -> Script {
    let mut script = Script::new(false);
    while script.has_room(9000) {
        match rng.below(10) {
            0..=6 => made_up(rng, &mut script, counts),
            7 => reached(rng, &mut script, counts),
            _ => parts(rng, &mut script, counts),
        }
    }
    script
}

/// The number at a place of an answer.
fn at(answer: &str, place: usize) -> usize {
    answer.split_whitespace().nth(place).and_then(|word| word.parse().ok()).unwrap_or(0)
}

fn call(script: &mut Script, counts: &mut Counts, command: Command) {
    let before = script.record.clone();
    let answer = script.call(command.clone());
    match command {
        Command::Play(event) => {
            let number = at(&answer, 0);
            *counts.events.entry(number).or_default() += 1;
            counts.again.add(again::on_record(&before, event, number as u8));
            if number == 0 {
                counts.voters.add(voters::played(&before, &script.record, event));
            }
        }
        Command::LookBallot(b) => {
            let number = at(&answer, 0);
            *counts.tallies.entry(number).or_default() += 1;
            if number == 0 {
                counts.voters.add(voters::looked_at(&before, b));
            }
        }
        Command::Compare { k, a, b } => counts.compared.add(compared::sorts(k, a ^ b)),
        Command::Look(_) => *counts.looks.entry(at(&answer, 0)).or_default() += 1,
        Command::Run { log, .. } => {
            *counts.runs.entry(at(&answer, 2)).or_default() += 1;
            counts.runs_again += usize::from(again::in_log(&log[..at(&answer, 1)]));
        }
        _ => {}
    }
}

/// A number of few bits, or at an edge.
fn word(rng: &mut Rng) -> u32 {
    let any = rng.next() as u32;
    rng.pick(&[0, 1, 2, 3, 5, 7, 1 << 31, (1 << 31) - 1, u32::MAX, any, any % 8, any % 32])
}

/// A station that passes the record test.
pub fn sound(rng: &mut Rng, n: u8, rule: u8) -> Station {
    let rounds = ceil_log2(n);
    let stage = rng.pick(&STAGES);
    let finish = matches!(stage, Stage::VotingFinish | Stage::AwaitingFinish);
    let in_round = matches!(stage, Stage::Voting | Stage::Awaiting | Stage::Seeking);
    let stage = if rule == 1 && (finish || in_round && rounds == 0) { Stage::Waiting } else { stage };
    let free = matches!(stage, Stage::Idle | Stage::Waiting) || rule == 1 && stage == Stage::Decided;
    let (any, low) = (rng.byte(), rng.pick(&[0, 0, 1, 1, 2, 30, 31]));
    let any_held = rng.next() as u32;
    let round = match (free, rule) {
        (true, _) => rng.pick(&[0, 0, 0, 1, rounds, 31, 32, any]),
        (_, 1) => rng.byte() % rounds.max(1),
        _ => low,
    };
    Station {
        stage,
        lost: rng.chance(10),
        cursor: rng.byte() % n.max(1),
        round,
        held: rng.pick(&[u32::MAX, 0, any_held, any_held]),
        claim: word(rng),
        word: word(rng),
        decision: word(rng),
    }
}

/// One part is set at or past its edge.
fn broken(rng: &mut Rng, n: u8, station: Station) -> Station {
    let rounds = ceil_log2(n);
    let any = rng.byte();
    match rng.below(3) {
        0 => Station { cursor: rng.pick(&[n.wrapping_sub(1), n, n.wrapping_add(1), 31, 32, 255, any]), ..station },
        1 => Station { round: rng.pick(&[rounds.wrapping_sub(1), rounds, 31, 32, 33, 255, any]), ..station },
        _ => Station { stage: rng.pick(&STAGES), ..station },
    }
}

/// A set of stations: nobody, one, some or all of n; only numbers from n on; all 32; any.
fn set(rng: &mut Rng, n: u8) -> u32 {
    let below = u32::MAX >> (32 - n.clamp(1, 32));
    let (any, one) = (rng.next() as u32, 1 << rng.below(usize::from(n.clamp(1, 32))));
    rng.pick(&[0, 0, 0, 0, one, one, below, any & below, any & below, any & !below, !below, u32::MAX, any])
}

/// A ballot with any sets and marks, among n stations: the sets may meet, and it may have an answer that nobody cast.
pub fn ballot(rng: &mut Rng, n: u8) -> Ballot {
    let (zero, one) = (set(rng, n), set(rng, n));
    let one = if rng.chance(50) { one & !zero } else { one };
    Ballot { cast: [zero, one], answered: rng.chance(60), answer: rng.chance(50) }
}

fn head(rng: &mut Rng) -> (u8, u8) {
    let (n, rule) = (rng.pick(&[1, 1, 2, 2, 3, 3, 4, 5, 8, 9, 16, 17, 31, 32]), rng.pick(&[1, 2]));
    let any = rng.byte();
    match rng.below(20) {
        0 => (rng.pick(&[0, 33, 64, 255, any]), rule),
        1 => (n, rng.pick(&[0, 3, 255, any])),
        _ => (n, rule),
    }
}

/// A record, sound or with parts at an edge. Entries past its stations may be broken, which is no fault.
pub fn record(rng: &mut Rng) -> Record {
    let (n, rule) = head(rng);
    let mut record = Record { n, rule, ..Record::blank() };
    for (s, entry) in (0..32).zip(&mut record.stations) {
        let station = sound(rng, n, rule);
        *entry = if s < n { station } else { broken(rng, n, station) };
    }
    for (b, entry) in record.ballots.iter_mut().enumerate() {
        if rng.chance(if rule == 1 && b > 6 { 2 } else { 40 }) {
            *entry = ballot(rng, n);
        }
    }
    for _ in 0..rng.below(3) * rng.below(2) {
        break_one(rng, &mut record);
    }
    record
}

/// One part of one entry, at times past the last station, is set at or past its edge.
pub fn break_one(rng: &mut Rng, record: &mut Record) {
    let s = rng.below(usize::from(record.n.clamp(1, 31)) + 1);
    record.stations[s] = broken(rng, record.n, record.stations[s]);
}

/// The stations and one more, and what differs of the ballots, are made up; events are played on them.
fn made_up(rng: &mut Rng, script: &mut Script, counts: &mut Counts) {
    let Record { n, rule, stations, ballots } = record(rng);
    call(script, counts, Command::MakeHead { n, rule });
    for (s, station) in (0..=n.clamp(1, 31)).zip(stations) {
        call(script, counts, Command::MakeStation(s, station));
    }
    for (b, ballot) in (0..64).zip(ballots) {
        if ballot != script.record.ballots[usize::from(b)] {
            call(script, counts, Command::MakeBallot(b, ballot));
        }
    }
    play(rng, script, counts);
}

/// Any event around the ranges, most often a STEP.
pub fn event(rng: &mut Rng, record: &Record) -> Event {
    let n = usize::from(record.n);
    let (any, near, edge) = (rng.byte(), rng.below(n.max(1)) as u8, rng.below(n + 2) as u8);
    let s = rng.pick(&[near, near, near, near, near, near, edge, edge, any]);
    let t = rng.pick(&[near, rng.clone().below(n.max(1)) as u8, edge]);
    match rng.below(20) {
        0 | 1 => Event::Claim { s, v: word(rng) },
        2..=4 => Event::Deliver { t, s },
        5 => Event::Lose { s },
        6..=8 => Event::Answer {
            b: rng.pick(&[0, 1, 2, 3, 4, 5, 6, 61, 62, 63, 64, any]),
            a: rng.pick(&[0, 1, 0, 1, 2, any]),
        },
        9 | 10 => again_or_other(rng, record),
        _ => Event::Step { s },
    }
}

/// An answer that stands in some entry, or the other bit; of ballot 0 where none stands.
fn again_or_other(rng: &mut Rng, record: &Record) -> Event {
    let entries = (0..64).zip(&record.ballots).filter(|(_, ballot)| ballot.answered);
    let answers: Vec<(u8, bool)> = entries.map(|(b, ballot)| (b, ballot.answer)).collect();
    let (b, answer) = if answers.is_empty() { (0, false) } else { rng.pick(&answers) };
    Event::Answer { b, a: u8::from(answer != rng.chance(40)) }
}

fn play(rng: &mut Rng, script: &mut Script, counts: &mut Counts) {
    for _ in 0..5 + rng.below(60) {
        if script.record.is_faulty() && rng.chance(25) {
            break;
        }
        let event = event(rng, &script.record);
        call(script, counts, Command::Play(event));
        if matches!(event, Event::Answer { .. }) && rng.chance(50) {
            call(script, counts, Command::Play(event));
        }
        look_around(rng, script, counts, event);
    }
    if rng.chance(60) {
        script.show_record();
    }
}

/// What an event has left: the station and the ballot that it is about, and at times another of each.
fn look_around(rng: &mut Rng, script: &mut Script, counts: &mut Counts, event: Event) {
    let (any, near) = (rng.byte(), rng.byte() % 8);
    let (s, b) = match event {
        Event::Claim { s, .. } | Event::Deliver { s, .. } | Event::Lose { s } => (s, any % 64),
        Event::Step { s } => (s, ballot_near(rng, &script.record, s)),
        Event::Answer { b, .. } => (near, b),
    };
    call(script, counts, Command::ShowStation(s % 32));
    call(script, counts, Command::Look(s));
    call(script, counts, Command::LookBallot(b));
    if rng.chance(50) {
        call(script, counts, Command::ShowBallot(b % 64));
    }
    if rng.chance(20) {
        call(script, counts, Command::ShowBallot(any % 64));
        call(script, counts, Command::LookBallot(any));
        call(script, counts, Command::ShowStation(near));
    }
}

/// A ballot of the round that a station is in.
fn ballot_near(rng: &mut Rng, record: &Record, s: u8) -> u8 {
    let k = record.stations[usize::from(s % 32)].round;
    k.wrapping_mul(record.rule).wrapping_add(rng.pick(&[0, 0, 1]))
}

/// A settlement reached by RUN under some limit, played on.
fn reached(rng: &mut Rng, script: &mut Script, counts: &mut Counts) {
    let (n, rule) = (rng.pick(&[1, 2, 3, 4, 5, 17, 32]), rng.pick(&[1, 2]));
    let play_from = crate::model::Play::open(n, rule).expect("a valid opening");
    let mix = generate::mix(rng, n);
    let events = generate::list(rng, play_from, &mix, 150);
    let events = if rng.chance(70) { generate::accepted(n, rule, &events) } else { events };
    let mut log = if rng.chance(50) { written(n, rule, &events) } else { generate::with_notes(rng, n, rule, &events) };
    if rng.chance(20) {
        log = generate::damaged(rng, &log);
    }
    log.truncate(3000);
    let count = Record::run(&log, usize::MAX).1.events as u32;
    let middle = rng.below(events.len() + 1) as u32;
    let limit =
        rng.pick(&[0, 1, 2, middle, middle, middle, count, count + 1, count.saturating_sub(1), 65_536, u32::MAX]);
    call(script, counts, Command::Run { limit, log });
    for s in 0..n {
        call(script, counts, Command::Look(s));
    }
    let ballots = script.record.ballot_count();
    for b in [0, 1, 2, 3, ballots.wrapping_sub(1), ballots, 64, 255] {
        call(script, counts, Command::LookBallot(b));
    }
    script.show_record();
    play(rng, script, counts);
}

/// BODY, READ, REST and lengths on any bytes, comparisons, and OPEN with any numbers.
fn parts(rng: &mut Rng, script: &mut Script, counts: &mut Counts) {
    for _ in 0..20 {
        let bytes = match rng.below(3) {
            0 => generate::any_bytes(rng),
            1 => field(rng),
            _ => [field(rng), generate::any_bytes(rng)].concat(),
        };
        let cut = bytes.len() - rng.below(bytes.len().min(2) + 1);
        let bytes = bytes[..cut].to_vec();
        let any = rng.next() as u32;
        let end = bytes.len() as u32;
        let taken = rng.pick(&[0, 1, 2, end, end.saturating_sub(1), end + 1, any, u32::MAX]);
        call(script, counts, Command::Read(bytes.clone()));
        call(script, counts, Command::Body(bytes.clone()));
        call(script, counts, Command::Rest { taken, log: bytes });
        let claim = any >> rng.below(32);
        call(script, counts, Command::Length(claim));
        call(script, counts, comparison(rng, claim));
    }
    let (any, rule) = (rng.byte(), rng.byte());
    call(
        script,
        counts,
        Command::Open { n: rng.pick(&[0, 1, 2, 31, 32, 33, any]), rule: rng.pick(&[0, 1, 2, 3, rule]) },
    );
    script.show_record();
}

/// A word and one that differs from it in a few bits, most of them at k or around it, or in any.
fn comparison(rng: &mut Rng, a: u32) -> Command {
    let any = rng.byte();
    let k = rng.pick(&[0, 1, 2, 4, 7, 15, 16, 30, 31, 31, 32, 33, 64, 255, any % 32, any % 32, any]);
    let near = |rng: &mut Rng| 1u32.checked_shl(u32::from(k)).unwrap_or(0).rotate_right(rng.below(5) as u32);
    let (one, other, bits) = (near(rng), near(rng), rng.next() as u32);
    let low = u32::MAX.checked_shl(u32::from(k) + 1).map_or(bits, |above| bits & !above);
    let differing = rng.pick(&[0, one, one | other, 1 << (bits % 32), low, bits, one.rotate_left(5)]);
    Command::Compare { k, a, b: a ^ differing }
}

/// A field of any kind, its length at times not the table's.
fn field(rng: &mut Rng) -> Vec<u8> {
    let (x, y, v) = (rng.byte(), rng.byte(), rng.next() as u32);
    let note = rng.pick(&[0, 1, 5, 63, 64, 65]);
    let field = match rng.below(7) {
        0 => Field::Opening { n: x, rule: y },
        1 => Field::Event(Event::Claim { s: x, v }),
        2 => Field::Event(Event::Deliver { t: x, s: y }),
        3 => Field::Event(Event::Step { s: x }),
        4 => Field::Event(Event::Lose { s: x }),
        5 => Field::Event(Event::Answer { b: x, a: y }),
        _ => Field::Note(rng.bytes(note)),
    };
    let mut bytes = field.bytes();
    if rng.chance(20) {
        let i = rng.below(3);
        bytes[i] = rng.pick(&[0, 1, 2, 5, 6, 0x12, 0x30, 255]);
    }
    bytes
}
