//! A settlement as bytes, read from its table alone: which bytes are an image, of which record, and what each operation on
//! them has to leave and to answer. The record's own rules are those of `record.rs`.

use crate::log::Counts;
use crate::model::Event;
use crate::record::{Ballot, Look, Record, Station, Tally, STAGES};
use crate::text;

pub const BYTES: usize = 1283;
pub const VERSION: u8 = 3;
/// Where the entries begin, and the bytes of one: stations, who voted in each ballot, and each ballot's marks.
pub const STATIONS: usize = 3;
pub const STATION: usize = 20;
pub const VOTERS: usize = 643;
pub const BALLOT_VOTERS: usize = 8;
pub const MARKS: usize = 1155;
pub const BALLOT_MARKS: usize = 2;
/// The bytes of a look at a ballot.
pub const TALLY: usize = 12;

/// No image: another length, another version; a byte that no record has.
pub const LENGTH: u8 = 80;
pub const OTHER_VERSION: u8 = 81;
pub const FAULTY: u8 = 42;

pub fn encode(record: &Record) -> Vec<u8> {
    let mut bytes = vec![VERSION, record.n, record.rule];
    bytes.extend(record.stations.iter().flat_map(station_bytes));
    bytes.extend(record.ballots.iter().flat_map(|ballot| ballot.cast).flat_map(u32::to_be_bytes));
    bytes.extend(record.ballots.iter().flat_map(|ballot| [ballot.answered, ballot.answer]).map(u8::from));
    bytes
}

/// Stage, lost, cursor, round; held, claim, word and decision, high byte first.
fn station_bytes(station: &Station) -> Vec<u8> {
    let Station { stage, lost, cursor, round, held, claim, word, decision } = *station;
    let number = STAGES.iter().position(|other| *other == stage).expect("one of the stages");
    let mut bytes = vec![number as u8, u8::from(lost), cursor, round];
    bytes.extend([held, claim, word, decision].iter().flat_map(|x| x.to_be_bytes()));
    bytes
}

/// The record whose image this is, or the number of what is no image.
pub fn decode(bytes: &[u8]) -> Result<Record, u8> {
    if bytes.len() != BYTES {
        return Err(LENGTH);
    }
    if bytes[0] != VERSION {
        return Err(OTHER_VERSION);
    }
    let stations: Option<Vec<Station>> = bytes[STATIONS..VOTERS].chunks(STATION).map(read_station).collect();
    let voters = bytes[VOTERS..MARKS].chunks(BALLOT_VOTERS);
    let ballots: Option<Vec<Ballot>> = voters.zip(bytes[MARKS..].chunks(BALLOT_MARKS)).map(read_ballot).collect();
    Ok(Record {
        n: bytes[1],
        rule: bytes[2],
        stations: stations.ok_or(FAULTY)?.try_into().expect("32 stations"),
        ballots: ballots.ok_or(FAULTY)?.try_into().expect("64 ballots"),
    })
}

fn read_mark(byte: u8) -> Option<bool> {
    [false, true].get(usize::from(byte)).copied()
}

/// Four bytes from a place on, high byte first.
fn number(bytes: &[u8], place: usize) -> u32 {
    bytes[place..place + 4].iter().fold(0, |x, byte| 256 * x + u32::from(*byte))
}

fn read_station(bytes: &[u8]) -> Option<Station> {
    Some(Station {
        stage: *STAGES.get(usize::from(bytes[0]))?,
        lost: read_mark(bytes[1])?,
        cursor: bytes[2],
        round: bytes[3],
        held: number(bytes, 4),
        claim: number(bytes, 8),
        word: number(bytes, 12),
        decision: number(bytes, 16),
    })
}

/// The set of 0 and the set of 1, high byte first; answered, the answer.
fn read_ballot((voters, marks): (&[u8], &[u8])) -> Option<Ballot> {
    let cast = [number(voters, 0), number(voters, 4)];
    Some(Ballot { cast, answered: read_mark(marks[0])?, answer: read_mark(marks[1])? })
}

/// What every operation tests first: the image, then 01's record test.
pub fn tested(image: &[u8]) -> Result<Record, u8> {
    let record = decode(image)?;
    match record.is_faulty() {
        true => Err(FAULTY),
        false => Ok(record),
    }
}

/// OPEN: its number, and the bytes afterwards.
pub fn open(image: &[u8], n: u8, rule: u8) -> (u8, Vec<u8>) {
    if image.len() != BYTES {
        return (LENGTH, image.to_vec());
    }
    let (number, record) = Record::open(n, rule);
    (number, encode(&record))
}

/// An event: its number, and the bytes afterwards.
pub fn event(image: &[u8], event: Event) -> (u8, Vec<u8>) {
    let mut record = match decode(image) {
        Ok(record) => record,
        Err(number) => return (number, image.to_vec()),
    };
    match record.event(event) {
        0 => (0, encode(&record)),
        number => (number, image.to_vec()),
    }
}

/// The eight bytes of LOOK's answer: number, decided, votes, 0, the claim.
pub fn look_bytes(look: Look) -> [u8; 8] {
    let [a, b, c, d] = look.claim.to_be_bytes();
    [look.number, u8::from(look.decided), look.votes, 0, a, b, c, d]
}

pub fn look(image: &[u8], s: u8) -> [u8; 8] {
    let refused = |number| Look { number, decided: false, claim: 0, votes: 0 };
    look_bytes(decode(image).map_or_else(refused, |record| record.look(s)))
}

/// LOOK at every station: the answers, or the number. They need a room of so many bytes.
pub fn look_all(image: &[u8], room: usize) -> Result<Vec<u8>, u8> {
    let record = tested(image)?;
    match room < 8 * usize::from(record.n) {
        true => Err(30),
        false => Ok((0..record.n).flat_map(|s| look_bytes(record.look(s))).collect()),
    }
}

/// The bytes of a look at a ballot: both sets, how many are in each, answered, the answer.
pub fn tally_bytes(tally: Tally) -> Vec<u8> {
    let Tally { cast, counts, answered, answer, .. } = tally;
    let mut bytes: Vec<u8> = cast.iter().flat_map(|set| set.to_be_bytes()).collect();
    bytes.extend([counts[0], counts[1], u8::from(answered), u8::from(answer)]);
    bytes
}

/// A look at a ballot: its bytes, or the number. They need a room of so many bytes.
pub fn look_ballot(image: &[u8], b: u8, room: usize) -> Result<Vec<u8>, u8> {
    let tally = decode(image).map_or_else(Tally::refused, |record| record.look_ballot(b));
    match (tally.number, room < TALLY) {
        (0, true) => Err(30),
        (0, false) => Ok(tally_bytes(tally)),
        (number, _) => Err(number),
    }
}

/// The text of an image: with these numbers, or the blank settlement's with the number of what is refused.
pub fn report(image: &[u8], counts: Counts) -> String {
    match tested(image) {
        Ok(record) => text::of_record(&record, counts),
        Err(status) => text::of_record(&Record::blank(), Counts { events: 0, taken: 0, status }),
    }
}

/// RUN: its counts, which are 0 with another length, and the bytes afterwards.
pub fn play(log: &[u8], limit: usize, image: &[u8]) -> (Counts, Vec<u8>) {
    if image.len() != BYTES {
        return (Counts { events: 0, taken: 0, status: LENGTH }, image.to_vec());
    }
    let (record, counts) = Record::run(log, limit);
    (counts, encode(&record))
}
