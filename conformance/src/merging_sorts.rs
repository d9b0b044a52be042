//! What pairs of logs have to meet (document 02, A.5), so that nothing is left out: both logs' faults, each test before the next, and the ways in
//! which two logs go together or do not.

use crate::again::Met;
use crate::log;
use crate::merging::{merge, one_list, owner, Kiosk};
use crate::model::{Event, Play};

/// Reading faults of the first log and of the second.
const FAULTS: [(u8, [&str; 2]); 8] = [
    (20, ["20 of the first log", "20 of the second log"]),
    (21, ["21 of the first log", "21 of the second log"]),
    (22, ["22 of the first log", "22 of the second log"]),
    (23, ["23 of the first log", "23 of the second log"]),
    (24, ["24 of the first log", "24 of the second log"]),
    (25, ["25 of the first log", "25 of the second log"]),
    (40, ["40 of the first log", "40 of the second log"]),
    (41, ["41 of the first log", "41 of the second log"]),
];

const BOTH_FAULTY: &str = "a fault of the first log, and another of the second";
const FAULTY_OPENING: &str = "a fault of the second log, and the openings differ";
const READ_ON: [&str; 2] =
    ["a fault of the first log behind a refused event", "a fault of the second log behind a refused event"];
const STATIONS_DIFFER: &str = "60, the numbers of stations alone";
const RULES_DIFFER: &str = "60, the rules alone";
const OPENINGS_AND_OWNERS: &str = "60, and a station has events in both";
const OWNERS_ONLY: &str = "61, where some order is accepted";
const OWNERS_BLOCKED: &str = "61, and neither next event is accepted";
const NO_STATION_TWICE: &str = "61 for a station that there is not";

const NEITHER: &str = "62, neither next event is accepted";
const FIRST_LEFT: &str = "62, the second log is at its end";
const SECOND_LEFT: &str = "62, the first log is at its end";
const EACH_WAITS: &str = "62, each log waits for what comes later in the other";
const OTHER_BIT: &str = "62, another answer stands";
const FINE_ALONE: &str = "62, and each log by itself is accepted whole";
const NO_STATION: &str = "62, an event of a station that there is not";

const NOTHING: &str = "0, neither has events";
const ONLY_FIRST: &str = "0, only the first has events";
const ONLY_SECOND: &str = "0, only the second has events";
const DROPPED: [&str; 2] = ["0, notes of the first log are dropped", "0, notes of the second log are dropped"];
const BOTH_ACCEPTED: &str = "0, the first's event, where the second's is accepted too";
const ENDED: &str = "0, the second's event, the first is at its end";
const NO_CLAIM: &str = "0, the second's event, the first's DELIVER has no claim yet";
const NO_ANSWER: &str = "0, the second's event, the first's STEP has no answer yet";
const NO_VOTE: &str = "0, the second's event, the first's ANSWER has no vote yet";
const TWICE: &str = "0, an answer of both logs comes twice";
const SENDER: &str = "0, a claim of the other log's station is delivered";
const BOTH_STOP: &str = "0, where each log by itself stops";

const OTHERS: [&str; 30] = [
    BOTH_FAULTY,
    FAULTY_OPENING,
    READ_ON[0],
    READ_ON[1],
    STATIONS_DIFFER,
    RULES_DIFFER,
    OPENINGS_AND_OWNERS,
    OWNERS_ONLY,
    OWNERS_BLOCKED,
    NO_STATION_TWICE,
    NEITHER,
    FIRST_LEFT,
    SECOND_LEFT,
    EACH_WAITS,
    OTHER_BIT,
    FINE_ALONE,
    NO_STATION,
    NOTHING,
    ONLY_FIRST,
    ONLY_SECOND,
    DROPPED[0],
    DROPPED[1],
    BOTH_ACCEPTED,
    ENDED,
    NO_CLAIM,
    NO_ANSWER,
    NO_VOTE,
    TWICE,
    SENDER,
    BOTH_STOP,
];

pub fn all() -> Vec<&'static str> {
    FAULTS.iter().flat_map(|(_, words)| *words).chain(OTHERS).collect()
}

type Sorts = Vec<(bool, &'static str)>;

/// Counts the sorts that a pair of logs is of.
pub fn count(met: &mut Met, first: &[u8], second: &[u8]) {
    let mut sorts = match (Kiosk::read(first), Kiosk::read(second)) {
        (Ok(one), Ok(other)) => {
            let notes = [(first, &one), (second, &other)].map(|(log, kiosk)| log.len() > written(kiosk));
            both_read(&one, &other, notes, merge(first, second).err())
        }
        (one, other) => faulty(first, second, one.err(), other.err()),
    };
    sorts.retain(|(holds, _)| *holds);
    sorts.sort_unstable();
    sorts.dedup();
    met.add(sorts.into_iter().map(|(_, sort)| sort));
}

fn written(kiosk: &Kiosk) -> usize {
    log::written(kiosk.opened.n, kiosk.opened.rule_number(), &kiosk.events).len()
}

/// One of the logs has a fault, or both have.
fn faulty(first: &[u8], second: &[u8], one: Option<u8>, other: Option<u8>) -> Sorts {
    let (which, number) = one.map_or((1, other), |number| (0, Some(number)));
    let log = [first, second][which];
    let named = FAULTS.iter().filter(|(fault, _)| Some(*fault) == number).map(|(_, words)| (true, words[which]));
    let openings = [first, second].map(|log| log::opening(log).map(|(opened, _)| opened));
    let differ = matches!(&openings, [Ok(one), Ok(other)] if one != other);
    let stops_early = !(20..=25).contains(&log::run(log, usize::MAX).counts.status);
    named
        .chain([
            (one.is_some() && other.is_some() && one != other, BOTH_FAULTY),
            (which == 1 && differ, FAULTY_OPENING),
            (openings[which].is_ok() && stops_early, READ_ON[which]),
        ])
        .collect()
}

fn both_read(one: &Kiosk, other: &Kiosk, notes: [bool; 2], number: Option<u8>) -> Sorts {
    let shared: Vec<u8> = one.owners().intersection(&other.owners()).copied().collect();
    let made = one_list(&one.opened, &one.events, &other.events);
    match number {
        Some(60) => vec![
            (one.opened.rule == other.opened.rule, STATIONS_DIFFER),
            (one.opened.n == other.opened.n, RULES_DIFFER),
            (!shared.is_empty(), OPENINGS_AND_OWNERS),
        ],
        Some(61) => vec![
            (made.is_some(), OWNERS_ONLY),
            (made.is_none(), OWNERS_BLOCKED),
            (shared.iter().any(|&s| s >= one.opened.n), NO_STATION_TWICE),
        ],
        Some(_) => blocked(one, other),
        None => accepted(one, other, notes),
    }
}

/// Whether a kiosk's log is accepted whole by itself.
fn alone(kiosk: &Kiosk) -> bool {
    one_list(&kiosk.opened, &kiosk.events, &[]).is_some()
}

/// The two logs as they are played side by side.
struct Side<'a> {
    play: Play,
    left: [&'a [Event]; 2],
}

impl<'a> Side<'a> {
    fn of(one: &'a Kiosk, other: &'a Kiosk) -> Side<'a> {
        Side { play: one.opened.clone(), left: [&one.events, &other.events] }
    }

    /// The number that the next event of each would get.
    fn numbers(&self) -> [Option<u8>; 2] {
        self.left.map(|events| events.first().map(|&event| self.play.clone().event(event)))
    }

    /// Plays the next event: the log that it is of, or none where neither is accepted.
    fn next(&mut self) -> Option<usize> {
        let which = self.numbers().iter().position(|number| *number == Some(0))?;
        let (&event, rest) = self.left[which].split_first()?;
        self.play.event(event);
        self.left[which] = rest;
        Some(which)
    }
}

fn blocked(one: &Kiosk, other: &Kiosk) -> Sorts {
    let mut side = Side::of(one, other);
    while side.next().is_some() {}
    let [first, second] = side.left;
    let numbers = side.numbers();
    // were its next event accepted, the other log might go on
    let waits = |i: usize| matches!(numbers[i], Some(4 | 8 | 12)) && is_due(side.left[i][0], side.left[1 - i]);
    vec![
        (!first.is_empty() && !second.is_empty(), NEITHER),
        (second.is_empty(), FIRST_LEFT),
        (first.is_empty(), SECOND_LEFT),
        (waits(0) && waits(1), EACH_WAITS),
        (numbers.contains(&Some(11)), OTHER_BIT),
        (alone(one) && alone(other), FINE_ALONE),
        (numbers.contains(&Some(1)), NO_STATION),
    ]
}

/// What the event waits for is among these: a claim, an answer or a vote.
fn is_due(event: Event, later: &[Event]) -> bool {
    later.iter().any(|other| match (event, other) {
        (Event::Deliver { t, .. }, Event::Claim { s, .. }) => t == *s,
        (Event::Step { .. }, Event::Answer { .. }) | (Event::Answer { .. }, Event::Step { .. }) => true,
        _ => false,
    })
}

fn accepted(one: &Kiosk, other: &Kiosk, notes: [bool; 2]) -> Sorts {
    let (first, second) = (&one.events, &other.events);
    let (owners, others) = (one.owners(), other.owners());
    let answer = |event: &&Event| owner(**event).is_none();
    let foreign = |event: &Event| match event {
        Event::Deliver { t, s } => owners.contains(t) != owners.contains(s) && others.contains(t) != others.contains(s),
        _ => false,
    };
    let mut sorts = vec![
        (first.is_empty() && second.is_empty(), NOTHING),
        (!first.is_empty() && second.is_empty(), ONLY_FIRST),
        (first.is_empty() && !second.is_empty(), ONLY_SECOND),
        (notes[0], DROPPED[0]),
        (notes[1], DROPPED[1]),
        (first.iter().filter(answer).any(|event| second.contains(event)), TWICE),
        (first.iter().chain(second).any(foreign), SENDER),
        (!alone(one) && !alone(other), BOTH_STOP),
    ];
    let mut side = Side::of(one, other);
    let mut numbers = side.numbers();
    while let Some(which) = side.next() {
        sorts.extend(of_event(which, numbers));
        numbers = side.numbers();
    }
    sorts
}

/// Why an event of this log comes, with the numbers of both next ones before it.
fn of_event(which: usize, numbers: [Option<u8>; 2]) -> Sorts {
    let waits = |number: u8| which == 1 && numbers[0] == Some(number);
    vec![
        (which == 0 && numbers[1] == Some(0), BOTH_ACCEPTED),
        (which == 1 && numbers[0].is_none(), ENDED),
        (waits(4), NO_CLAIM),
        (waits(8), NO_ANSWER),
        (waits(12), NO_VOTE),
    ]
}
