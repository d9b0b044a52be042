//! What CLOSE is compared on (document 02, A.3), from a fixed seed.

use crate::again::Met;
use crate::closing::{self, Closing};
use crate::demand;
use crate::edges;
use crate::generate::{self, accepted, opening, Rng};
use crate::judge::{Checked, Judge, STATUSES};
use crate::log::{self, Field};
use crate::model::{Event, Play};
use crate::plain_close;

const SEED: u64 = 20_261_118;
const ANY: usize = usize::MAX;

/// How much was compared.
#[derive(Default)]
pub struct Closed {
    pub logs: usize,
    pub events: usize,
    pub at_bound: usize,
    /// Refused for the preferred bit, and not by a log that stops with 10.
    pub no_bit: usize,
    pub sorts: Met,
    /// The longest closing log in bytes, and the longest where 32 stations have claimed and done nothing else.
    pub longest: usize,
    pub only_claimed: usize,
}

impl Closed {
    pub fn lines(&self) -> String {
        let Closed { logs, events, at_bound, no_bit, longest, only_claimed, .. } = self;
        let sorts = self.sorts.lines("CLOSE:", &closing::SORTS);
        format!(
            "{logs} closing logs of {events} events play to the end, with {at_bound} stations at the bound; \
             {no_bit} times 10 for the preferred bit, and never 43\n\
             the longest closing log of 32 stations has {longest} bytes, and {only_claimed} where they have only claimed\n\
             {sorts}"
        )
    }
}

/// Every number that CLOSE has to meet: a log's statuses, and 30. 43 cannot occur from an opening.
pub fn due() -> impl Iterator<Item = u8> {
    STATUSES.into_iter().chain([30])
}

pub fn compare(judge: &mut Judge) -> Checked {
    let mut rng = Rng::new(SEED);
    rows(judge)?;
    openings(judge)?;
    beginnings(judge, &mut rng)?;
    lost_votes(judge, &mut rng)?;
    settlements(judge, &mut rng)?;
    limits(judge, &mut rng)?;
    damaged(judge, &mut rng)?;
    longest(judge)
}

/// CLOSE of what a log plays to. Accepted, in buffers of just its bytes, one less, none and more; refused, of none
/// and some.
fn close(judge: &mut Judge, log: &[u8], limit: usize, preferred: u8) -> Checked {
    let (play, closing) = match closing::of_log(log, limit, preferred) {
        Ok(closed) => closed,
        Err(43) => return Err(format!("the model cannot close a log with {preferred}: {}", crate::judge::hex(log))),
        Err(number) => {
            judge.closed.no_bit += usize::from(number == 10 && log::run(log, limit).counts.status == 0);
            return [0, 1, 50].iter().try_for_each(|&room| judge.close(log, limit, preferred, room, Err(number)));
        }
    };
    let bytes = closing.bytes();
    for room in [bytes.len(), bytes.len().saturating_sub(1), 0, bytes.len() + 1 + judge.closed.logs % 200] {
        judge.close(log, limit, preferred, room, Ok(&bytes))?;
    }
    promised(judge, log, &play, &closing)
        .map_err(|why| format!("request A.3: {why}\n  preferred {preferred}, log: {}", crate::judge::hex(log)))?;
    judge.closed.sorts.add(closing::sorts(&play, &closing, preferred));
    Ok(())
}

/// What A.3 promises, and demand 3 on the whole list.
fn promised(judge: &mut Judge, log: &[u8], play: &Play, closing: &Closing) -> Checked {
    judge.closed.logs += 1;
    judge.closed.events += closing.events.len();
    judge.closed.at_bound += closing::check(log, play, closing)?;
    if judge.closed.logs % 10 != 0 || closing.events.len() > 2000 {
        return Ok(());
    }
    let events = [&events_of(log)[..], &closing.events].concat();
    demand::check(play.n, play.rule_number(), &events, &mut judge.seen)
}

fn events_of(log: &[u8]) -> Vec<Event> {
    let event = |field| match field {
        Field::Event(event) => Some(event),
        _ => None,
    };
    fields_of(log).into_iter().filter_map(|(_, field)| event(field)).collect()
}

/// The fields that read, and where they begin.
fn fields_of(log: &[u8]) -> Vec<(usize, Field)> {
    let (mut fields, mut place) = (Vec::new(), 0);
    while let Ok((field, taken)) = log::read(&log[place..]) {
        fields.push((place, field));
        place += taken;
    }
    fields
}

// ---- by hand from the document: a list, the preferred bit, and the closing log

const TWO: &str = "deliver 0 0; step 0; deliver 1 1, 0 1; step 1; deliver 1 0; step 0, 1";

fn rows(judge: &mut Judge) -> Checked {
    let alone = "deliver 0 0; step 0, 0; answer 0 0; step 0, 0, 0";
    let voted = "open 2 1; claim 0 7, 1 9; deliver 0 0, 1 1; step 0, 0, 1, 1";
    let by_claim = format!("{TWO}; answer 0 1; step 0, 1, 0, 1, 0, 1");
    let rows = [
        ("open 1 1", 0, String::new()),
        ("open 1 1; lose 0", 1, String::new()),
        ("open 1 1; claim 0 5; lose 0", 1, String::new()),
        ("open 1 1; claim 0 5; deliver 0 0; step 0", 1, String::new()),
        ("open 1 1; claim 0 5", 1, "deliver 0 0; step 0".to_string()),
        ("open 1 1; claim 0 5; deliver 0 0", 0, "step 0".to_string()),
        ("open 2 1; claim 0 7, 1 9", 1, format!("{TWO}; answer 0 1; step 0, 1, 0, 1, 1")),
        ("open 2 1; claim 0 7, 1 9", 0, format!("{TWO}; answer 0 0; step 0, 1, 0, 1, 0")),
        // nobody casts 1; the other station is idle, or it is lost and nobody holds its claim
        ("open 2 1; claim 0 7", 1, alone.to_string()),
        ("open 2 1; claim 0 7, 1 9; lose 1", 1, alone.to_string()),
        // a lost station that is idle holds the claim of another lost one
        (
            "open 3 1; claim 0 7, 1 9; deliver 1 2; lose 2, 1",
            1,
            "deliver 0 0, 1 0; step 0, 0; answer 0 0; step 0, 0, 0, 0, 0; answer 1 0; step 0, 0, 0, 0".to_string(),
        ),
        // its own claim, and then those of two lost ones in rising order
        (
            "open 3 1; claim 0 7, 1 9, 2 4; deliver 0 0, 1 1; lose 0, 1",
            1,
            "deliver 2 2, 0 2, 1 2; step 2, 2; answer 0 0; step 2, 2, 2; answer 1 0; step 2, 2, 2, 2".to_string(),
        ),
        // the answer stands, whatever is preferred
        (&format!("{voted}; answer 0 0"), 1, "deliver 1 0; step 0; deliver 0 1; step 1, 0, 1, 0".to_string()),
        // only the lost one cast 1
        (&format!("{voted}; lose 1"), 1, "deliver 1 0; answer 0 1; step 0, 0".to_string()),
        // case B: nobody casts 0 in the finish ballot
        ("open 1 2; claim 0 0", 0, format!("{alone}; answer 1 1; step 0")),
        // cases C and D
        ("open 2 2; claim 0 1, 1 3", 1, format!("{by_claim}; answer 1 1; step 0, 1")),
        (
            "open 2 2; claim 0 1, 1 3",
            0,
            format!(
                "{by_claim}; answer 1 0; step 0, 1, 0, 1; answer 2 0; step 0, 1, 0, 1, 0, 1; answer 3 1; step 0, 1, 1"
            ),
        ),
    ];
    for (words, preferred, due) in rows {
        let (log, due) = (edges::bytes_of(words), edges::bytes_of(&due));
        let model = closing::of_log(&log, ANY, preferred).map(|(_, closing)| closing.bytes());
        edges::expect(words, model == Ok(due))?;
        close(judge, &log, ANY, preferred)?;
    }
    stopped(judge)
}

/// A log's status comes before the preferred bit, and that before the room.
fn stopped(judge: &mut Judge) -> Checked {
    for (words, limit, preferred, number) in [
        ("open 2 1; claim 0 7; step 0", ANY, 0, 8),
        ("open 2 1; claim 0 7; step 0", ANY, 2, 8),
        ("open 2 1; claim 0 7; step 0", 0, 2, 26),
        ("open 2 1; claim 0 7", 1, 2, 10),
        ("open 2 1; claim 0 7", 1, 255, 10),
        ("open 2 1", 0, 2, 10),
        ("open 33 1", ANY, 2, 40),
        ("open 32 3", ANY, 0, 41),
        ("lose 0", ANY, 2, 24),
        ("open 2 1; open 2 1", ANY, 1, 25),
    ] {
        let log = edges::bytes_of(words);
        edges::expect(words, closing::of_log(&log, limit, preferred).err() == Some(number))?;
        close(judge, &log, limit, preferred)?;
    }
    Ok(())
}

// ---- many

/// Every number of stations with rules good and bad, and no byte at all.
fn openings(judge: &mut Judge) -> Checked {
    for preferred in [0, 1, 2, 255] {
        close(judge, &[], ANY, preferred)?;
        for (n, rule) in (0..=255).flat_map(|n| [0, 1, 2, 3].map(|rule| (n, rule))) {
            close(judge, &log::written(n, rule, &[]), 0, preferred)?;
        }
    }
    Ok(())
}

/// A list of accepted events of few stations, most of them with short claims; often it ends as some are lost.
pub fn short_list(rng: &mut Rng, n: u8, rule: u8, most: usize) -> Vec<Event> {
    let play = Play::open(n, rule).expect("a valid opening");
    let mut mix = generate::mix(rng, n);
    if rng.chance(90) {
        mix.claims.iter_mut().for_each(|claim| *claim %= 16);
    }
    mix.loss = rng.pick(&[0, 0, 2, 8]);
    let most = 1 + rng.below(most);
    let mut events = generate::list(rng, play, &mix, most);
    let lost = rng.pick(&[0, 0, 1, 2]);
    events.extend((0..lost).map(|_| Event::Lose { s: rng.below(usize::from(n)) as u8 }));
    accepted(n, rule, &events)
}

/// Every beginning of a log, its fields cut short too; both bits, and now and then what is none.
fn beginnings(judge: &mut Judge, rng: &mut Rng) -> Checked {
    for _ in 0..300 {
        let (n, rule) = (rng.pick(&[1, 2, 2, 3, 3, 4, 5, 8]), rng.pick(&[1, 2]));
        let events = short_list(rng, n, rule, 60);
        let log = match rng.chance(20) {
            true => generate::with_notes(rng, n, rule, &events),
            false => log::written(n, rule, &events),
        };
        let places: Vec<usize> = fields_of(&log).iter().map(|(place, _)| *place).chain([log.len()]).collect();
        for cut in 0..=log.len() {
            let whole = places.contains(&cut);
            let none = rng.pick(&[2, 255]);
            match whole {
                true => [0, 1, none].into_iter().try_for_each(|bit| close(judge, &log[..cut], ANY, bit))?,
                false => close(judge, &log[..cut], ANY, rng.pick(&[0, 1, none]))?,
            }
        }
    }
    Ok(())
}

/// Stations that have voted in ballot 0, and most of them are lost then: both bits.
fn lost_votes(judge: &mut Judge, rng: &mut Rng) -> Checked {
    for _ in 0..100 {
        let (n, rule) = (2 + rng.below(4) as u8, rng.pick(&[1, 2]));
        let mut events = Vec::new();
        for s in 0..n {
            events.push(Event::Claim { s, v: rng.below(8) as u32 });
            events.extend([Event::Deliver { t: s, s }, Event::Step { s }, Event::Step { s }]);
        }
        events.extend((0..n).filter(|_| rng.chance(60)).map(|s| Event::Lose { s }));
        let log = log::written(n, rule, &events);
        [0, 1].into_iter().try_for_each(|bit| close(judge, &log, ANY, bit))?;
    }
    Ok(())
}

/// Settlements of any number of stations at any time, at most a few with claims of 32 bits.
fn settlements(judge: &mut Judge, rng: &mut Rng) -> Checked {
    for round in 0..120 {
        let (n, rule) = opening(rng);
        let mut mix = generate::mix(rng, n);
        if round % 20 != 0 {
            mix.claims.iter_mut().for_each(|claim| *claim %= 64);
        }
        mix.loss = rng.pick(&[0, 0, 1]);
        let play = Play::open(n, rule).expect("a valid opening");
        let most = rng.pick(&[50, 200, 800, 3000]);
        let events = accepted(n, rule, &generate::list(rng, play, &mix, most));
        let some = rng.below(events.len() + 1);
        close(judge, &log::written(n, rule, &events[..some]), ANY, rng.pick(&[0, 1]))?;
    }
    Ok(())
}

/// Each limit up to one more than the events.
fn limits(judge: &mut Judge, rng: &mut Rng) -> Checked {
    for _ in 0..40 {
        let (n, rule) = (rng.pick(&[1, 2, 3, 4]), rng.pick(&[1, 2]));
        let events = short_list(rng, n, rule, 30);
        let log = log::written(n, rule, &events);
        for limit in 0..=events.len() + 1 {
            close(judge, &log, limit, rng.pick(&[0, 1, 2]))?;
        }
    }
    Ok(())
}

/// Logs with faults, events that are refused, and any bytes.
fn damaged(judge: &mut Judge, rng: &mut Rng) -> Checked {
    for _ in 0..400 {
        let (n, rule) = (rng.pick(&[1, 2, 3, 4]), rng.pick(&[1, 2]));
        let events = short_list(rng, n, rule, 40);
        let log = log::written(n, rule, &events);
        for _ in 0..4 {
            close(judge, &generate::damaged(rng, &log), ANY, rng.pick(&[0, 1, 2]))?;
        }
        let events = generate::random_list(rng, n, rule, 30);
        close(judge, &log::written(n, rule, &events), ANY, rng.pick(&[0, 1]))?;
        close(judge, &generate::any_bytes(rng), ANY, rng.pick(&[0, 1, 2]))?;
    }
    Ok(())
}

// ---- the longest

/// The station whose claim is the only one that fits the answer 1 of ballot 0, and then each further bit.
const LAST: u8 = 31;

/// 32 stations have claimed by claim. So each of them seeks all the way round in every round but the first.
pub fn only_claimed() -> Vec<u8> {
    log::written(32, 2, &claims())
}

fn claims() -> Vec<Event> {
    (0..=LAST).map(|s| Event::Claim { s, v: if s == LAST { u32::MAX } else { u32::MAX - 1 } }).collect()
}

/// The same in the first round too: ballot 0 is answered 1, and but for so many that have the longest way anyhow, the
/// stations have sought up to the last, whose claim they lack. Three steps and a delivery of each are then no part of
/// the closing log.
fn sought(but: u8) -> Vec<u8> {
    let mut events = claims();
    let begin = |s: u8| [Event::Deliver { t: s, s }, Event::Step { s }, Event::Step { s }];
    events.extend(begin(LAST));
    events.push(Event::Answer { b: 0, a: 1 });
    for s in but..LAST {
        events.extend(begin(s));
        // it takes the answer, and comes to each station up to the last
        events.extend([Event::Step { s }].repeat(1 + usize::from(LAST - s)));
    }
    log::written(32, 2, &events)
}

/// A small search: the longest of these by the plain implementation, which the model has to find as long.
fn longest(judge: &mut Judge) -> Checked {
    let size = |log: &[u8], preferred: u8| plain_close::close(log, ANY, preferred, &mut vec![0; 200_000]) as usize;
    let logs = (0..=LAST).map(sought).flat_map(|log| [0, 1].map(|bit| (size(&log, bit), log.clone(), bit)));
    let (bytes, log, preferred) = logs.max_by_key(|(size, ..)| *size).expect("some log");
    close(judge, &log, ANY, preferred)?;
    close(judge, &only_claimed(), ANY, 1)?;
    judge.closed.longest = bytes;
    judge.closed.only_claimed = size(&only_claimed(), 1);
    edges::expect("the longest closing log", (bytes, judge.closed.only_claimed) == (152_507, 151_040))
}
