//! Cases for the program `closing_case`: CLOSE of a record, whoever wrote it, and what document 02, A.3, says that the
//! program must write.

use crate::image;
use crate::judge::hex;
use crate::model::Event;
use crate::record::{Ballot, Record, Stage};
use crate::record_close::{bound, close, Closing, Stuck};

/// The bytes of a case's words, and of a case; and so many cases are all that the program reads.
const WORDS: usize = 80;
const CASE: usize = WORDS + image::BYTES + 3;
pub const MOST: usize = 65_536 / CASE;

/// A byte of the buffer before it is lent.
const UNTOUCHED: u8 = 0xee;

#[derive(Clone, Debug)]
pub struct Case {
    /// A line that the program writes as it stands.
    pub words: String,
    pub record: Record,
    pub preferred: u8,
    pub room: u16,
}

impl Case {
    fn line(&self) -> String {
        format!("{:-<width$}\n", format!("{} ", self.words), width = WORDS - 1)
    }

    pub fn bytes(&self) -> Vec<u8> {
        let mut bytes = self.line().into_bytes();
        bytes.extend(image::encode(&self.record));
        bytes.push(self.preferred);
        bytes.extend(self.room.to_be_bytes());
        assert_eq!(bytes.len(), CASE, "the words of a case are too long: {}", self.words);
        bytes
    }

    /// Number and count, every byte of the buffer, and the image of the settlement after.
    pub fn text(&self) -> String {
        let room = usize::from(self.room);
        let closed = close(&self.record, self.preferred, room);
        let mut buffer = vec![UNTOUCHED; room];
        buffer[..closed.bytes.len()].copy_from_slice(&closed.bytes);
        let (number, count, after) = (closed.number, closed.bytes.len(), image::encode(&closed.record));
        format!("{}{number} {count}\n{}\n{}\n", self.line(), hex(&buffer), hex(&after))
    }
}

// ---- what has to be met, so that nothing is left out

const FAULTY: &str = "42";
const FAULTY_NO_BIT: &str = "42, and the preferred bit is none";
const NO_BIT: &str = "10";
const NO_BIT_STUCK: &str = "10, where both bits give 43";
const UNCAST: &str = "43, for nobody cast a bit where an answer is due";
/// By rule 1, and by rule 2.
const LEFT_FAULTY: [&str; 2] = [
    "43, for a STEP leaves what the record test refuses, rule 1",
    "43, for a STEP leaves what the record test refuses, rule 2",
];
const USED_UP: [&str; 2] =
    ["43, for a station uses up its bound, rule 1", "43, for a station uses up its bound, rule 2"];
const LAST_BALLOT: &str = "43, for answer 0 is taken from ballot 63";
const LAST_ANSWER: &str = "43, for that answer, which is the closing log's own";
const STUCK_NO_ROOM: &str = "43, and there is no room";
const NO_ROOM: &str = "30, and there is no room";
const SHORT: &str = "30, one byte too few";
const EXACT: &str = "0, with just so many bytes";
const MORE: &str = "0, and the bytes after the log stay";
const NOTHING: &str = "0, and nothing is to be closed";
const NO_STATIONS: &str = "0, and there are no stations";
const AT_BOUND: [&str; 2] =
    ["0, a station takes all steps of its bound, rule 1", "0, a station takes all steps of its bound, rule 2"];
const UNLIKE: &str = "0, and stations decide differently";
const HELD_BEYOND: &str = "0, a claim stays out that only entries from n on hold";
const HELD_IDLE: &str = "0, a held number stays out, for that station is idle";
const CAST_BEYOND: &str = "0, ANSWER of a bit that only numbers from n on cast";
const CAST_TWICE: &str = "0, ANSWER where a station is in both sets";
const TAKEN_UNCAST: &str = "0, an answer is taken that nobody cast";

pub const SORTS: [&str; 26] = [
    FAULTY,
    FAULTY_NO_BIT,
    NO_BIT,
    NO_BIT_STUCK,
    UNCAST,
    LEFT_FAULTY[0],
    LEFT_FAULTY[1],
    USED_UP[0],
    USED_UP[1],
    LAST_BALLOT,
    LAST_ANSWER,
    STUCK_NO_ROOM,
    NO_ROOM,
    SHORT,
    EXACT,
    MORE,
    NOTHING,
    NO_STATIONS,
    AT_BOUND[0],
    AT_BOUND[1],
    UNLIKE,
    HELD_BEYOND,
    HELD_IDLE,
    CAST_BEYOND,
    CAST_TWICE,
    TAKEN_UNCAST,
];

impl Case {
    pub fn number(&self) -> u8 {
        close(&self.record, self.preferred, usize::from(self.room)).number
    }

    /// The sorts that it is of.
    pub fn sorts(&self) -> Vec<&'static str> {
        let Case { record, preferred, room, .. } = self;
        let stuck = |bit| Closing::of(record, bit).1.is_err();
        let sorts = match self.number() {
            42 => vec![(*preferred < 2, FAULTY), (*preferred > 1, FAULTY_NO_BIT)],
            10 => vec![(true, NO_BIT), (stuck(0) && stuck(1), NO_BIT_STUCK)],
            number => {
                let (closing, end) = Closing::of(record, *preferred);
                let (size, room) = (closing.bytes().len(), usize::from(*room));
                match number {
                    43 => vec![
                        (true, why(&closing, end)),
                        (own_answer(&closing, end), LAST_ANSWER),
                        (room == 0, STUCK_NO_ROOM),
                    ],
                    30 => vec![(room == 0, NO_ROOM), (room + 1 == size, SHORT)],
                    _ => {
                        let closed = [(room == size, EXACT), (room > size, MORE)];
                        [&closed[..], &accepted(record, &closing)].concat()
                    }
                }
            }
        };
        sorts.into_iter().filter(|(holds, _)| *holds).map(|(_, sort)| sort).collect()
    }
}

fn by_rule(record: &Record, sorts: [&'static str; 2]) -> &'static str {
    sorts[usize::from(record.rule == 2)]
}

/// Why it is 43.
fn why(closing: &Closing, end: Result<(), Stuck>) -> &'static str {
    let record = &closing.record;
    match end {
        Err(Stuck::UsedUp) => by_rule(record, USED_UP),
        Err(Stuck::Refused(Event::Answer { .. }, 12)) => UNCAST,
        Err(Stuck::Refused(_, 42)) if record.is_faulty() => by_rule(record, LEFT_FAULTY),
        Err(Stuck::Refused(Event::Step { .. }, 42)) => LAST_BALLOT,
        other => panic!("a closing log ends in another way: {other:?} on {record:?}"),
    }
}

fn own_answer(closing: &Closing, end: Result<(), Stuck>) -> bool {
    why(closing, end) == LAST_BALLOT && closing.events.contains(&Event::Answer { b: 63, a: 0 })
}

type Sorts = Vec<(bool, &'static str)>;

/// The sorts of a closing log that is accepted.
fn accepted(before: &Record, closing: &Closing) -> Sorts {
    let after = &closing.record;
    let stations = || 0..before.n;
    let closed: Vec<u8> = stations().filter(|&s| before.is_left(s)).collect();
    let steps = |s| closing.events.iter().filter(|&&event| event == Event::Step { s }).count();
    let decision = |s: u8| after.stations[usize::from(s)].decision;
    let held = |t| stations().any(|u| after.holds(u, t));
    let beyond = |t: u8| after.put_in(t) && !held(t) && (before.n..32).any(|u| after.holds(u, t));
    let idle = |t: u8| !after.put_in(t) && held(t) && closed.iter().any(|&s| !after.holds(s, t));
    let mut sorts = vec![
        (closed.is_empty(), NOTHING),
        (before.n == 0, NO_STATIONS),
        (closed.iter().any(|&s| steps(s) == bound(before)), by_rule(before, AT_BOUND)),
        (closed.iter().any(|&s| decision(s) != decision(closed[0])), UNLIKE),
        (!closed.is_empty() && stations().any(beyond), HELD_BEYOND),
        (stations().any(idle), HELD_IDLE),
    ];
    let mut record = before.clone();
    for &event in &closing.events {
        sorts.extend(of_event(&record, event));
        record.event(event);
    }
    sorts.sort_unstable();
    sorts.dedup();
    sorts
}

fn of_event(record: &Record, event: Event) -> Sorts {
    match event {
        Event::Answer { b, a } => {
            let ballot = record.ballots[usize::from(b)];
            let below = u32::MAX >> (32 - record.n);
            vec![
                (ballot.cast[usize::from(a)] & below == 0, CAST_BEYOND),
                (ballot.cast[0] & ballot.cast[1] != 0, CAST_TWICE),
            ]
        }
        Event::Step { s } => {
            let awaits = matches!(record.stations[usize::from(s)].stage, Stage::Awaiting | Stage::AwaitingFinish);
            let uncast = |ballot: &Ballot| !ballot.was_cast(u8::from(ballot.answer));
            vec![(awaits && uncast(&record.ballots[record.ballot_of(s).0]), TAKEN_UNCAST)]
        }
        _ => Vec::new(),
    }
}
