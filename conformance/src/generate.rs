//! Random inputs from a fixed seed.

use crate::log::Field;
use crate::model::{Event, Play, Stage};

/// A small generator of random numbers (splitmix64).
#[derive(Clone)]
pub struct Rng(u64);

impl Rng {
    pub fn new(seed: u64) -> Rng {
        Rng(seed)
    }

    pub fn next(&mut self) -> u64 {
        self.0 = self.0.wrapping_add(0x9e37_79b9_7f4a_7c15);
        let mut x = self.0;
        x = (x ^ (x >> 30)).wrapping_mul(0xbf58_476d_1ce4_e5b9);
        x = (x ^ (x >> 27)).wrapping_mul(0x94d0_49bb_1331_11eb);
        x ^ (x >> 31)
    }

    pub fn below(&mut self, end: usize) -> usize {
        (self.next() % end as u64) as usize
    }

    pub fn chance(&mut self, percent: usize) -> bool {
        self.below(100) < percent
    }

    pub fn pick<T: Copy>(&mut self, from: &[T]) -> T {
        from[self.below(from.len())]
    }

    pub fn byte(&mut self) -> u8 {
        self.next() as u8
    }

    pub fn bytes(&mut self, count: usize) -> Vec<u8> {
        (0..count).map(|_| self.byte()).collect()
    }
}

/// What a list is made of. Numbers are percents.
pub struct Mix {
    /// The claims to choose from; several stations may choose the same.
    pub claims: Vec<u32>,
    /// Events with any arguments in between.
    pub any: usize,
    /// Stations lost.
    pub loss: usize,
    /// Missing claims delivered before a step.
    pub deliver: usize,
    /// Idle stations that claim when their turn comes.
    pub claim: usize,
    /// Announcements that come twice, once there is one.
    pub again: usize,
}

pub fn mix(rng: &mut Rng, n: u8) -> Mix {
    let width = rng.pick(&[1, 2, 3, 4, 6, 8, 12, 16, 31, 32]);
    let count = 1 + rng.below(usize::from(n));
    Mix {
        claims: (0..count).map(|_| claim(rng, width)).collect(),
        any: rng.pick(&[0, 2, 10, 40]),
        loss: rng.pick(&[0, 0, 0, 1, 3]),
        deliver: rng.pick(&[5, 30, 80, 100]),
        claim: rng.pick(&[5, 50, 100]),
        again: rng.pick(&[0, 3, 15, 50]),
    }
}

/// A claim of at most so many bits, often one at the edge.
fn claim(rng: &mut Rng, width: u32) -> u32 {
    let largest = u32::MAX >> (32 - width);
    match rng.below(8) {
        0 => 0,
        1 => largest,
        2 => largest / 2 + 1,
        _ => rng.next() as u32 & largest,
    }
}

/// A number of stations: small ones often, and those beside a power of two.
pub fn stations(rng: &mut Rng) -> u8 {
    match rng.below(3) {
        0 => rng.pick(&[1, 2, 3, 4]),
        1 => rng.pick(&[5, 7, 8, 9, 15, 16, 17, 31, 32]),
        _ => 1 + rng.below(32) as u8,
    }
}

/// A random opening that is accepted.
pub fn opening(rng: &mut Rng) -> (u8, u8) {
    (stations(rng), rng.pick(&[1, 2]))
}

/// A random list with refused events, of at most so many.
pub fn random_list(rng: &mut Rng, n: u8, rule: u8, most: usize) -> Vec<Event> {
    let play = Play::open(n, rule).expect("a valid opening");
    let mix = mix(rng, n);
    list(rng, play, &mix, most)
}

/// A list of at most so many events, refused ones included, that ends some time after all is decided.
pub fn list(rng: &mut Rng, play: Play, mix: &Mix, most: usize) -> Vec<Event> {
    let mut play = play;
    let mut events = Vec::new();
    while events.len() < most && !(settled(&play) && rng.chance(10)) {
        let event = next_event(rng, &play, mix);
        play.event(event);
        events.push(event);
    }
    events
}

/// Nothing more is to come: all are lost, or every live station that claimed has decided.
fn settled(play: &Play) -> bool {
    let mut live = play.put_in.keys().filter(|s| !play.lost.contains(s));
    let claimed = !play.put_in.is_empty() || play.lost.len() == usize::from(play.n);
    claimed && live.all(|&s| play.decision(s).is_some())
}

fn next_event(rng: &mut Rng, play: &Play, mix: &Mix) -> Event {
    // at 0 nothing is drawn: the benchmark's lists stay, but for an answer again after the last decision
    if mix.again > 0 && !play.answers.is_empty() && rng.chance(mix.again) {
        return again(rng, play);
    }
    if rng.chance(mix.any) {
        return any_event(rng, play, mix);
    }
    let unfinished = |s: &u8| !play.lost.contains(s) && play.stage(*s) != Stage::Decided;
    let turns: Vec<u8> = (0..8).map(|_| rng.below(usize::from(play.n)) as u8).collect();
    match turns.into_iter().chain(0..play.n).find(unfinished) {
        Some(s) => useful_event(rng, play, mix, s),
        None => any_event(rng, play, mix),
    }
}

/// An event that may bring station s on.
fn useful_event(rng: &mut Rng, play: &Play, mix: &Mix, s: u8) -> Event {
    if rng.chance(mix.loss) {
        return Event::Lose { s };
    }
    let holds = |t: u8| play.held.contains(&(t, s));
    let missing: Vec<u8> = play.put_in.keys().copied().filter(|&t| !holds(t)).collect();
    match play.stage(s) {
        Stage::Idle if rng.chance(mix.claim) => Event::Claim { s, v: rng.pick(&mix.claims) },
        Stage::Waiting if !holds(s) => Event::Deliver { t: s, s },
        Stage::Awaiting(b) if !play.answers.contains_key(&b) => some_answer(rng, play, b),
        _ if !missing.is_empty() && rng.chance(mix.deliver) => Event::Deliver { t: rng.pick(&missing), s },
        Stage::Idle => any_event(rng, play, mix),
        _ => Event::Step { s },
    }
}

/// Any of the bits cast in ballot b.
fn some_answer(rng: &mut Rng, play: &Play, b: u8) -> Event {
    let cast: Vec<u8> = (0..2).filter(|&a| play.was_cast(b, a)).collect();
    Event::Answer { b, a: rng.pick(&cast) }
}

/// The answer that a ballot has, once more, or at times the other bit; of the last ballot more often than not.
fn again(rng: &mut Rng, play: &Play) -> Event {
    let answers: Vec<(u8, u8)> = play.answers.iter().map(|(&b, &a)| (b, a)).collect();
    let (last, any) = (answers[answers.len() - 1], rng.pick(&answers));
    let (b, a) = rng.pick(&[last, any]);
    Event::Answer { b, a: if rng.chance(85) { a } else { 1 - a } }
}

/// A number mostly below the end, at times at it or past it.
fn around(rng: &mut Rng, end: u8) -> u8 {
    match rng.below(12) {
        0 => rng.pick(&[end, end.saturating_add(1), 31, 32, 63, 64, 255]),
        _ => rng.below(usize::from(end).max(1)) as u8,
    }
}

/// An event with any arguments.
pub fn any_event(rng: &mut Rng, play: &Play, mix: &Mix) -> Event {
    let (s, t) = (around(rng, play.n), around(rng, play.n));
    match rng.below(10) {
        0 | 1 => Event::Claim { s, v: rng.pick(&mix.claims) },
        2 | 3 => Event::Deliver { t, s },
        4..=6 => Event::Step { s },
        7 if rng.chance(30) => Event::Lose { s },
        _ => Event::Answer { b: near_ballot(rng, play), a: rng.pick(&[0, 1, 0, 1, 0, 1, 2, 255]) },
    }
}

/// A ballot among the first that are in use, or around the last.
fn near_ballot(rng: &mut Rng, play: &Play) -> u8 {
    let used = play.answers.len() as u8 + 2;
    if rng.chance(80) {
        rng.below(usize::from(used)) as u8
    } else {
        around(rng, play.ballots())
    }
}

/// The accepted events of a list.
pub fn accepted(n: u8, rule: u8, events: &[Event]) -> Vec<Event> {
    let mut play = Play::open(n, rule).expect("a valid opening");
    let mut events = events.to_vec();
    events.retain(|&event| play.event(event) == 0);
    events
}

/// A long list for n stations, two or more: ballot 0 is answered 1, and the claims of the odd stations
/// come late. The even stations seek until the log has so many bytes; then all goes on to its end, where answers come again
/// in so many percent of the events. All are accepted.
pub fn long_list(rng: &mut Rng, n: u8, rule: u8, bytes: usize, again: usize) -> Vec<Event> {
    let mut play = Play::open(n, rule).expect("a valid opening");
    let mut events = late_start(rng, n);
    events.iter().for_each(|&event| assert_eq!(play.event(event), 0));
    let seeking = bytes.saturating_sub(written_bytes(&events)) / 4;
    for _ in 0..seeking {
        let s = 2 * rng.below(usize::from(n).div_ceil(2)) as u8;
        let event = Event::Step { s };
        assert_eq!(play.event(event), 0);
        events.push(event);
    }
    let to_the_end = Mix { claims: vec![0], any: 0, loss: 0, deliver: 90, claim: 0, again };
    events.extend(list(rng, play, &to_the_end, 20_000));
    accepted(n, rule, &events)
}

fn written_bytes(events: &[Event]) -> usize {
    events.iter().map(|&e| Field::Event(e).bytes().len()).sum()
}

/// Each station holds only its own claim and has taken 1 as the answer to ballot 0.
fn late_start(rng: &mut Rng, n: u8) -> Vec<Event> {
    let mut events = Vec::new();
    for s in 0..n {
        let v = 2 * rng.below(128) as u32 + u32::from(s % 2);
        events.extend([Event::Claim { s, v }, Event::Deliver { t: s, s }]);
        events.extend([Event::Step { s }; 2]);
    }
    events.push(Event::Answer { b: 0, a: 1 });
    events.extend((0..n).map(|s| Event::Step { s }));
    events
}

/// The log with notes after it, up to a size.
pub fn padded(log: &[u8], size: usize) -> Vec<u8> {
    let mut log = log.to_vec();
    while log.len() < size {
        let left = size - log.len();
        let field = match left {
            0..=67 => left,
            68 | 69 => 60,
            _ => 67,
        };
        log.extend(Field::Note(vec![b'.'; field - 3]).bytes());
    }
    log
}

/// The log with one to three faults.
pub fn damaged(rng: &mut Rng, log: &[u8]) -> Vec<u8> {
    let mut log = log.to_vec();
    for _ in 0..1 + rng.below(3) {
        damage(rng, &mut log);
    }
    log
}

fn damage(rng: &mut Rng, log: &mut Vec<u8>) {
    let at = rng.below(log.len() + 1);
    let to = at + rng.below(9).min(log.len() - at);
    match rng.below(6) {
        0 => log.truncate(at),
        1 => log.insert(at, rng.byte()),
        2 => drop(log.drain(at..to)),
        3 => log.extend_from_within(at..to),
        4 if at < log.len() => log[at] ^= 1 << rng.below(8),
        _ if at < log.len() => log[at] = rng.pick(&[0, 1, 2, 5, 0x10, 0x12, 0x30, 255]),
        _ => log.push(rng.byte()),
    }
}

/// Any bytes; half of the time those that fields are made of.
pub fn any_bytes(rng: &mut Rng) -> Vec<u8> {
    const COMMON: [u8; 12] = [0x01, 0, 2, 0x10, 5, 0x11, 0x12, 1, 0x13, 0x14, 0x30, 0];
    let count = rng.below(24);
    let common = rng.chance(50);
    let byte = |rng: &mut Rng| {
        if common {
            rng.pick(&COMMON)
        } else {
            rng.byte()
        }
    };
    (0..count).map(|_| byte(rng)).collect()
}

/// A log with notes of 0 to 65 bytes between its fields; 65 are too many.
pub fn with_notes(rng: &mut Rng, n: u8, rule: u8, events: &[Event]) -> Vec<u8> {
    let mut log = Field::Opening { n, rule }.bytes();
    for &event in events {
        if rng.chance(30) {
            let count = rng.pick(&[0, 1, 7, 63, 64, 64, 64]);
            log.extend(Field::Note(rng.bytes(count)).bytes());
        }
        if rng.chance(1) {
            log.extend(Field::Note(rng.bytes(65)).bytes());
        }
        log.extend(Field::Event(event).bytes());
    }
    log
}
