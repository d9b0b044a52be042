//! Pairs of logs for MERGE (document 02, A.5): one evening dealt to two kiosks, and what may go wrong with it.

use crate::closings::short_list;
use crate::generate::{self, accepted, opening, Rng};
use crate::log::Field;
use crate::merging::owner;
use crate::model::{Event, Play};

/// The first log and the second.
pub type Logs = [Vec<u8>; 2];

type Kind = fn(&mut Rng) -> Logs;

/// How often each kind is drawn.
pub const KINDS: [(usize, Kind); 16] = [
    (4000, dealt),
    (6000, moved),
    (2000, left_out),
    (2000, other_answer),
    (500, crosswise),
    (3000, refused),
    (2000, apart),
    (1500, mixed),
    (1500, no_station),
    (1500, other_opening),
    (500, no_opening),
    (500, second_opening),
    (3000, damaged),
    (500, cut),
    (3000, any_bytes),
    (150, settlement),
];

/// An evening's opening, and each kiosk's events.
struct Evening {
    n: u8,
    rule: u8,
    events: [Vec<Event>; 2],
}

impl Evening {
    /// A short one, accepted whole, of few stations.
    fn short(rng: &mut Rng) -> Evening {
        let (n, rule) = (rng.pick(&[1, 2, 2, 2, 3, 3, 4, 5, 8]), rng.pick(&[1, 2]));
        let most = rng.pick(&[4, 8, 12, 12, 20, 60]);
        let events = short_list(rng, n, rule, most);
        Evening { n, rule, events: deal(rng, &events) }
    }

    /// Both logs, with notes or without.
    fn written(&self, rng: &mut Rng) -> Logs {
        [0, 1].map(|which| with_notes(rng, (self.n, self.rule), &self.events[which]))
    }

    /// One of the logs' events, those of a log that has some more often.
    fn any(&mut self, rng: &mut Rng) -> &mut Vec<Event> {
        let which = rng.below(2);
        let which = if self.events[which].is_empty() { 1 - which } else { which };
        &mut self.events[which]
    }

    /// Some events come into the other log.
    fn mix(&mut self, rng: &mut Rng) {
        let some = rng.pick(&[3, 30, 50]);
        for which in [0, 1] {
            let (moved, stay): (Vec<Event>, Vec<Event>) = self.events[which].iter().partition(|_| rng.chance(some));
            self.events[which] = stay;
            self.events[1 - which].extend(moved);
        }
    }

    fn station(&self, rng: &mut Rng) -> u8 {
        rng.below(usize::from(self.n)) as u8
    }
}

/// A list dealt to two kiosks: each station's events to one of them, an answer to one or to both.
fn deal(rng: &mut Rng, events: &[Event]) -> [Vec<Event>; 2] {
    let (stations, both) = (rng.next(), rng.pick(&[0, 30, 100]));
    let mut logs = [Vec::new(), Vec::new()];
    for &event in events {
        let which = match owner(event) {
            Some(s) => usize::from(stations >> (s % 64) & 1 == 1),
            None => rng.below(2),
        };
        logs[which].push(event);
        if owner(event).is_none() && rng.chance(both) {
            logs[1 - which].push(event);
        }
    }
    logs
}

/// A list dealt by halves: the lower stations' events to the first kiosk, the higher ones' to the second, the answers to both.
pub fn halves(n: u8, events: &[Event]) -> [Vec<Event>; 2] {
    let in_second = |event: Event| owner(event).map(|s| s >= n.div_ceil(2));
    [true, false].map(|other| events.iter().copied().filter(|&event| in_second(event) != Some(other)).collect())
}

fn with_notes(rng: &mut Rng, (n, rule): (u8, u8), events: &[Event]) -> Vec<u8> {
    let notes = rng.pick(&[0, 0, 20]);
    let mut log = Field::Opening { n, rule }.bytes();
    for field in events.iter().map(|&event| Some(Field::Event(event))).chain([None]) {
        if rng.chance(notes) {
            let count = rng.pick(&[0, 1, 4, 64]);
            log.extend(Field::Note(rng.bytes(count)).bytes());
        }
        log.extend(field.iter().flat_map(Field::bytes));
    }
    log
}

// ---- the kinds

/// One evening, dealt.
pub fn dealt(rng: &mut Rng) -> Logs {
    Evening::short(rng).written(rng)
}

/// In one log an event, or in both, stands at another place.
fn moved(rng: &mut Rng) -> Logs {
    let mut evening = Evening::short(rng);
    for _ in 0..1 + rng.below(2) {
        let events = evening.any(rng);
        if let Some(last) = events.len().checked_sub(1) {
            let from = rng.below(last + 1);
            let beside = (from + 1).min(last);
            let to = rng.pick(&[beside, beside, rng.clone().below(last + 1)]);
            let event = events.remove(from);
            events.insert(to, event);
        }
    }
    evening.written(rng)
}

/// An event is missing.
fn left_out(rng: &mut Rng) -> Logs {
    let mut evening = Evening::short(rng);
    let events = evening.any(rng);
    if !events.is_empty() {
        events.remove(rng.below(events.len()));
    }
    evening.written(rng)
}

/// One log has another answer to a ballot, or the same again, of a ballot that is answered or of any.
fn other_answer(rng: &mut Rng) -> Logs {
    let mut evening = Evening::short(rng);
    let answers: Vec<Event> = evening.events.iter().flatten().copied().filter(|&e| owner(e).is_none()).collect();
    let (b, a) = match answers.is_empty() {
        true => (rng.below(3) as u8, rng.below(3) as u8),
        false => match rng.pick(&answers) {
            Event::Answer { b, a } => (b, if rng.chance(70) { 1 - a } else { a }),
            _ => (0, 0),
        },
    };
    let events = evening.any(rng);
    let place = rng.pick(&[events.len(), rng.clone().below(events.len() + 1)]);
    events.insert(place, Event::Answer { b, a });
    evening.written(rng)
}

/// Two stations of different kiosks, each with the other's claim delivered before its own CLAIM, or one of them after it.
fn crosswise(rng: &mut Rng) -> Logs {
    let n = 2 + rng.below(31) as u8;
    let s = rng.below(usize::from(n)) as u8;
    let t = (s + 1 + rng.below(usize::from(n) - 1) as u8) % n;
    let events = [(s, t), (t, s)].map(|(own, other)| {
        let mut events = vec![Event::Deliver { t: other, s: own }, Event::Claim { s: own, v: u32::from(own) }];
        if rng.chance(30) {
            events.reverse();
        }
        events.extend([Event::Deliver { t: own, s: own }, Event::Step { s: own }].iter().take(rng.below(3)));
        events
    });
    Evening { n, rule: rng.pick(&[1, 2]), events }.written(rng)
}

/// A list with refused events, dealt.
fn refused(rng: &mut Rng) -> Logs {
    let (n, rule) = (rng.pick(&[1, 2, 2, 3, 4]), rng.pick(&[1, 2]));
    let most = rng.pick(&[3, 6, 10, 30]);
    let events = generate::random_list(rng, n, rule, most);
    Evening { n, rule, events: deal(rng, &events) }.written(rng)
}

/// Each log is accepted by itself, the answers in both may be different ones.
fn apart(rng: &mut Rng) -> Logs {
    let (n, rule, stations) = (rng.pick(&[2, 2, 3, 4]), rng.pick(&[1, 2]), rng.next());
    let most = rng.pick(&[12, 30, 60]);
    let events = [0, 1].map(|which| {
        let mut events = short_list(rng, n, rule, most);
        events.retain(|&event| owner(event).is_none_or(|s| stations >> s & 1 == which));
        accepted(n, rule, &events)
    });
    Evening { n, rule, events }.written(rng)
}

/// An evening whose events are dealt one by one, whosever they are.
fn mixed(rng: &mut Rng) -> Logs {
    let mut evening = Evening::short(rng);
    evening.mix(rng);
    evening.written(rng)
}

/// Events of stations that there are not, or DELIVERs of their claims, in one log or in both.
fn no_station(rng: &mut Rng) -> Logs {
    let mut evening = Evening::short(rng);
    let n = evening.n;
    let numbers = [n, n + 1, n + 31, n + 64, n + 128, 255];
    let (same, others) = (rng.pick(&numbers), rng.chance(50));
    for which in [0, 1] {
        if rng.chance(30) {
            continue;
        }
        let s = if others { rng.pick(&numbers) } else { same };
        let own = evening.station(rng);
        let event = match rng.below(5) {
            0 => Event::Claim { s, v: 7 },
            1 => Event::Deliver { t: own, s },
            2 => Event::Deliver { t: s, s: own },
            3 => Event::Step { s },
            _ => Event::Lose { s },
        };
        let place = rng.below(evening.events[which].len() + 1);
        evening.events[which].insert(place, event);
    }
    evening.written(rng)
}

/// The openings differ: by the stations, by the rule, or by both; the events may be mixed, the second log damaged.
fn other_opening(rng: &mut Rng) -> Logs {
    let mut evening = Evening::short(rng);
    let Evening { n, rule, .. } = evening;
    let other = 1 + (n + rng.below(31) as u8) % 32;
    if rng.chance(30) {
        evening.mix(rng);
    }
    let [first, mut second] = evening.written(rng);
    let (n, rule) = rng.pick(&[(other, rule), (n, 3 - rule), (other, 3 - rule)]);
    second[3..5].copy_from_slice(&[n, rule]);
    match rng.chance(30) {
        true => [first, generate::damaged(rng, &second)],
        false => [first, second],
    }
}

/// One log, or both, with its opening left out, or with something before it.
fn no_opening(rng: &mut Rng) -> Logs {
    let which = rng.pick(&[[true, false], [false, true], [true, true]]);
    let evening = Evening::short(rng);
    let logs = evening.written(rng);
    [0, 1].map(|i| {
        let event = Event::Step { s: evening.station(rng) };
        match (which[i], rng.below(3)) {
            (false, _) => logs[i].clone(),
            (_, 0) => logs[i][5..].to_vec(),
            (_, 1) => [Field::Note(vec![1]).bytes(), logs[i].clone()].concat(),
            _ => [Field::Event(event).bytes(), logs[i].clone()].concat(),
        }
    })
}

/// One log, or both, with a second opening at some place.
fn second_opening(rng: &mut Rng) -> Logs {
    let evening = Evening::short(rng);
    let which = rng.pick(&[[true, false], [false, true], [true, true]]);
    [0, 1].map(|i| {
        let (n, rule) = rng.pick(&[(evening.n, evening.rule), (0, 1), (33, 9)]);
        let fields = evening.events[i].iter().map(|&event| Field::Event(event).bytes());
        let mut fields: Vec<Vec<u8>> = fields.collect();
        if which[i] {
            fields.insert(rng.below(fields.len() + 1), Field::Opening { n, rule }.bytes());
        }
        [Field::Opening { n: evening.n, rule: evening.rule }.bytes(), fields.concat()].concat()
    })
}

/// One log damaged, or both.
fn damaged(rng: &mut Rng) -> Logs {
    let logs = Evening::short(rng).written(rng);
    let which = rng.pick(&[[true, false], [false, true], [true, true]]);
    [0, 1].map(|i| if which[i] { generate::damaged(rng, &logs[i]) } else { logs[i].clone() })
}

/// Both logs cut anywhere.
fn cut(rng: &mut Rng) -> Logs {
    Evening::short(rng).written(rng).map(|log| log[..rng.below(log.len() + 1)].to_vec())
}

/// Any bytes, after an opening or not.
fn any_bytes(rng: &mut Rng) -> Logs {
    let good = Evening::short(rng).written(rng);
    good.map(|log| {
        let bytes = generate::any_bytes(rng);
        match rng.below(4) {
            0 => bytes,
            1 | 2 => [&log[..5], &bytes].concat(),
            _ => log,
        }
    })
}

/// A whole settlement of any number of stations.
fn settlement(rng: &mut Rng) -> Logs {
    let (n, rule) = opening(rng);
    let mut mix = generate::mix(rng, n);
    mix.claims.iter_mut().for_each(|claim| *claim %= 64);
    let play = Play::open(n, rule).expect("a valid opening");
    let most = rng.pick(&[100, 400, 1500]);
    let events = accepted(n, rule, &generate::list(rng, play, &mix, most));
    Evening { n, rule, events: deal(rng, &events) }.written(rng)
}

// ---- every pair of short lists

/// What stations 0 and 1 may have done before.
pub fn beginnings() -> [[Vec<Event>; 2]; 4] {
    let claim = |s| vec![Event::Claim { s, v: 2 + u32::from(s) }];
    let voted = |s| [claim(s), vec![Event::Deliver { t: s, s }, Event::Step { s }, Event::Step { s }]].concat();
    [[Vec::new(), Vec::new()], [claim(0), claim(1)], [voted(0), claim(1)], [voted(0), voted(1)]]
}

/// Every list of at most two events that station s of two may have in its log.
pub fn lists_of(s: u8) -> Vec<Vec<Event>> {
    let answers = [0, 1].map(|a| Event::Answer { b: 0, a });
    let own = [Event::Claim { s, v: 1 }, Event::Deliver { t: 0, s }, Event::Deliver { t: 1, s }];
    let events = [&own[..], &[Event::Step { s }, Event::Lose { s }], &answers].concat();
    let one = events.iter().map(|&event| vec![event]);
    let two = events.iter().flat_map(|&event| events.iter().map(move |&next| vec![event, next]));
    [Vec::new()].into_iter().chain(one).chain(two).collect()
}
