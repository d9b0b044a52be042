//! The edges of document 01, with requests A.1 and A.2 of document 02, each with what the documents say of it.

use crate::judge::{Checked, Judge};
use crate::log::{self, Field};
use crate::model::{ceil_log2, length, Event, Play, Stage, Votes};
use crate::text;

/// Lists with their statuses and stations' lines; the file says how.
const CASES: &str = include_str!("edges.txt");

/// Bytes in hex, and RUN's status.
const BYTES: &[(&str, u8)] = &[
    ("", 20),
    ("01", 20),
    ("0100", 20),
    ("010002", 23),
    ("01000201", 23),
    ("0100010101", 22),
    ("010003010101", 22),
    ("0101020101", 22),
    ("0000020101", 21),
    ("0200020101", 21),
    ("ff", 20),
    ("ffffff", 21),
    ("12000100", 24),
    ("1200", 20),
    ("010002010112", 20),
    ("01000201011200", 20),
    ("0100020101120001", 23),
    ("0100020101120000", 22),
    ("0100020101150001", 21),
    ("01000201013000410000", 22),
    ("0100020101300040", 23),
    ("0100020101300000", 0),
    // an answer, then the same again, and then the other bit
    ("010002020210000500000000041100020000120001001200010014000200001400020000", 0),
    ("0100020202100005000000000411000200001200010012000100140002000014000200001400020001", 11),
];

/// The fields that a case's words say.
fn fields(words: &str) -> Vec<Field> {
    let verb = |clause: &str| -> Vec<Field> {
        let (verb, rest) = clause.trim().split_once(' ').expect("a verb and its numbers");
        rest.split(',').map(|numbers| field(verb, numbers)).collect()
    };
    words.split(';').filter(|clause| !clause.is_empty()).flat_map(verb).collect()
}

fn field(verb: &str, numbers: &str) -> Field {
    let number = |word: &str| word.parse::<u32>().expect("a number");
    let numbers: Vec<u32> = numbers.split_whitespace().map(number).collect();
    let byte = |i: usize| numbers[i] as u8;
    Field::Event(match verb {
        "open" => return Field::Opening { n: byte(0), rule: byte(1) },
        "note" => return Field::Note(vec![0x12; numbers[0] as usize]),
        "claim" => Event::Claim { s: byte(0), v: numbers[1] },
        "deliver" => Event::Deliver { t: byte(0), s: byte(1) },
        "step" => Event::Step { s: byte(0) },
        "lose" => Event::Lose { s: byte(0) },
        "answer" => Event::Answer { b: byte(0), a: byte(1) },
        _ => panic!("no verb {verb}"),
    })
}

/// The log of a case's words; no words are no field.
pub fn bytes_of(words: &str) -> Vec<u8> {
    fields(words).iter().flat_map(Field::bytes).collect()
}

/// Fails where the model does not say what the document says.
pub fn expect(name: &str, holds: bool) -> Checked {
    if holds {
        Ok(())
    } else {
        Err(format!("the model and document 01 differ in case {name}"))
    }
}

pub fn check(judge: &mut Judge) -> Checked {
    let lines: Vec<&str> = CASES.lines().filter(|l| !l.is_empty() && !l.starts_with('#')).collect();
    lines.chunks(2).try_for_each(|case| one_case(judge, case[0], case[1]))?;
    first_line(judge)?;
    limits(judge)?;
    bytes(judge)?;
    ballots(judge)?;
    voters(judge)?;
    lengths(judge)
}

fn one_case(judge: &mut Judge, case: &str, expected: &str) -> Checked {
    let (_, words) = case.split_once(':').expect("a name and a list");
    let log = bytes_of(words);
    let text = text::settle(&log);
    let (first, stations) = text.split_once('\n').expect("line one");
    let mut parts = expected.trim_start_matches([' ', '=']).split(" | ");
    expect(case, first.rsplit(' ').next() == parts.next())?;
    let lines: Vec<&str> = parts.collect();
    expect(case, lines.is_empty() || stations.lines().eq(lines))?;
    judge.report(&log)?;
    judge.small_buffers(&log)
}

/// Case S, line one, and the blank settlement's only line.
fn first_line(judge: &mut Judge) -> Checked {
    let log =
        bytes_of("open 2 1; claim 0 7, 1 9; deliver 0 0, 1 1, 1 0; step 0, 0, 1, 1; answer 0 1; step 0, 0, 1, 1, 1");
    let line = "stations 2 rule 1 ballots 1 events 15 taken 77 status 0\n";
    expect("S", text::settle(&log).starts_with(line))?;
    let blank = "stations 0 rule 1 ballots 0 events 0 taken 0 status 20\n";
    expect("blank", text::settle(&[]) == blank)?;
    judge.report(&[])?;
    again(judge)
}

/// 02, A.1: a repeat counts as a played event; the other bit does not, and stops before its field.
fn again(judge: &mut Judge) -> Checked {
    for (answers, line) in [
        ("0 0", "stations 2 rule 2 ballots 64 events 5 taken 31 status 0\n"),
        ("0 0, 0 0", "stations 2 rule 2 ballots 64 events 6 taken 36 status 0\n"),
        ("0 0, 0 0, 0 0", "stations 2 rule 2 ballots 64 events 7 taken 41 status 0\n"),
        ("0 0, 0 1", "stations 2 rule 2 ballots 64 events 5 taken 31 status 11\n"),
        ("0 0, 0 0, 0 1, 0 0", "stations 2 rule 2 ballots 64 events 6 taken 36 status 11\n"),
    ] {
        let log = bytes_of(&format!("open 2 2; claim 0 4; deliver 0 0; step 0, 0; answer {answers}"));
        expect(answers, text::settle(&log).starts_with(line))?;
        judge.report(&log)?;
    }
    Ok(())
}

const CLAIMS: &str = "open 2 2; claim 0 1, 1 3; deliver 0 0, 0 1, 1 0, 1 1; step 0, 0, 1, 1; answer 0 1";

/// Who voted which way: a list, a ballot, who cast 0, who cast 1 and the answer. The last steps of case D vote for what the cursor is at,
/// which is the other station.
fn voters(judge: &mut Judge) -> Checked {
    let finish = format!("{CLAIMS}; step 0, 0, 0, 1, 1, 1");
    let next = format!("{finish}; answer 1 0; step 0, 0, 1, 1");
    let lost = "open 3 2; claim 0 4, 1 5, 2 6; deliver 0 0, 1 1, 2 2; step 0, 0, 1, 1, 2, 2; lose 2, 1";
    type Row<'a> = (&'a str, u8, &'a [u8], &'a [u8], Option<u8>);
    let rows: [Row; 9] = [
        ("open 2 1; claim 0 7, 1 9; deliver 0 0, 1 1; step 0, 0, 1, 1; answer 0 1", 0, &[0], &[1], Some(1)),
        ("open 2 1; claim 1 9; deliver 1 1; step 1", 0, &[], &[], None),
        ("open 2 1; claim 1 9; deliver 1 1; step 1, 1", 0, &[], &[1], None),
        (CLAIMS, 0, &[], &[0, 1], Some(1)),
        (&finish, 1, &[0], &[1], None),
        (&next, 2, &[1], &[0], None),
        (&next, 63, &[], &[], None),
        (lost, 0, &[0, 2], &[1], None),
        (lost, 1, &[], &[], None),
    ];
    for (words, b, zero, one, answer) in rows {
        let due = Votes { voters: [zero, one].map(|stations| stations.iter().copied().collect()), answer };
        let log = bytes_of(words);
        let play = log::run(&log, usize::MAX).play.expect("a valid opening");
        expect(words, play.look_ballot(b) == Ok(due))?;
        judge.report(&log)?;
    }
    let ballots = |words| log::run(&bytes_of(words), 0).play.map(|play| [5, 64].map(|b| play.look_ballot(b).err()));
    expect("no ballot by station", ballots("open 32 1") == Some([Some(9); 2]))?;
    expect("no ballot by claim", ballots("open 1 2") == Some([None, Some(9)]))
}

/// Case H, and the limit before a note, a broken field, a second opening and an answer that comes again.
fn limits(judge: &mut Judge) -> Checked {
    let cases = [
        ("open 2 1", 0, 0),
        ("open 2 1; lose 0", 0, 26),
        ("open 2 1; note 0", 0, 26),
        ("open 2 1; open 2 1", 0, 26),
        ("open 2 1; note 65", 0, 26),
        ("open 2 1; note 0; lose 0", 1, 0),
        ("open 2 1; lose 0; note 0", 1, 26),
        ("open 2 1; lose 0, 0", 1, 26),
        ("open 2 1; lose 0, 0", 2, 2),
        ("open 2 1; claim 0 7; deliver 0 0; step 0, 0; answer 0 0, 0 0", 5, 26),
        ("open 2 1; claim 0 7; deliver 0 0; step 0, 0; answer 0 0, 0 0", 6, 0),
        ("open 2 1; claim 0 7; deliver 0 0; step 0, 0; answer 0 0, 0 1", 5, 26),
        ("open 2 1; claim 0 7; deliver 0 0; step 0, 0; answer 0 0, 0 1", 6, 11),
        ("open 0 1; lose 0", 0, 40),
        ("lose 0", 0, 24),
    ];
    for (words, limit, status) in cases {
        let log = bytes_of(words);
        expect(words, log::run(&log, limit).counts.status == status)?;
        judge.run(&log, limit)?;
    }
    Ok(())
}

fn bytes(judge: &mut Judge) -> Checked {
    for (hex, status) in BYTES {
        let byte = |i: usize| u8::from_str_radix(&hex[i..i + 2], 16).expect("hex");
        let log: Vec<u8> = (0..hex.len()).step_by(2).map(byte).collect();
        expect(hex, log::run(&log, 9).counts.status == *status)?;
        judge.report(&log)?;
        judge.run(&log, 9)?;
        judge.read(&log)?;
    }
    Ok(())
}

/// The last ballot of every n and rule gives 12, the next 9.
fn ballots(judge: &mut Judge) -> Checked {
    for n in 1..=32 {
        for (rule, ballots) in [(1, ceil_log2(n)), (2, 64)] {
            for b in ballots.saturating_sub(1)..=ballots {
                let log = log::written(n, rule, &[Event::Answer { b, a: 0 }]);
                let status = if b < ballots { 12 } else { 9 };
                expect("ballots", log::run(&log, 1).counts.status == status)?;
                judge.report(&log)?;
            }
        }
    }
    Ok(())
}

/// Alone by claim, a station decides its claim after two ballots for each binary digit.
fn lengths(judge: &mut Judge) -> Checked {
    let powers = (0..32).map(|k| 1u32 << k);
    let claims = powers.flat_map(|p| [p - 1, p, p + (p >> 1)]).chain([u32::MAX]);
    for v in claims {
        let events = alone(v);
        let log = log::written(1, 2, &events);
        let line = format!("0 decided {v} votes {} live\n", 2 * length(v));
        expect("lengths", text::settle(&log).ends_with(&line))?;
        judge.list(1, 2, &events)?;
    }
    Ok(())
}

/// One station by claim, to its end.
fn alone(v: u32) -> Vec<Event> {
    let mut play = Play::open(1, 2).expect("a valid opening");
    let mut events = vec![Event::Claim { s: 0, v }, Event::Deliver { t: 0, s: 0 }];
    events.iter().for_each(|&event| assert_eq!(play.event(event), 0));
    while play.stage(0) != Stage::Decided {
        let event = match play.stage(0) {
            Stage::Awaiting(b) if !play.answers.contains_key(&b) => {
                Event::Answer { b, a: u8::from(play.was_cast(b, 1)) }
            }
            _ => Event::Step { s: 0 },
        };
        assert_eq!(play.event(event), 0);
        events.push(event);
    }
    events
}
