//! The images and logs that are compared: random, made up, changed in one place, and reached from an opening.

use crate::generate::{self, accepted, opening, random_list, Rng};
use crate::image::{self, BALLOT_MARKS, BALLOT_VOTERS, BYTES, MARKS, STATION, STATIONS, TALLY, VERSION, VOTERS};
use crate::image_judge::ImageJudge;
use crate::image_lists::List;
use crate::image_rows;
use crate::judge::{same, same_bytes, Checked};
use crate::log::{self, Counts};
use crate::made_up;
use crate::model::{Event, Play};
use crate::record::{Record, Stage};

const KINDS: [fn(&mut ImageJudge, &mut Rng) -> Checked; 13] = [
    |judge, _| image_rows::check(judge),
    openings,
    other_lengths,
    any_bytes,
    made_up_records,
    last_ballots,
    marked_ballots,
    votes,
    one_change,
    every_place,
    short_lists,
    settlements,
    logs,
];

pub fn compare(judge: &mut ImageJudge, rng: &mut Rng) -> Checked {
    KINDS.iter().try_for_each(|kind| kind(judge, rng))
}

// ---- one image through every operation

/// Rooms for a look at a ballot: just enough, one byte less, none, more.
const ROOMS: [usize; 8] = [TALLY, TALLY, TALLY, TALLY - 1, 0, 1, TALLY + 1, 100];

fn some_ballot(rng: &mut Rng) -> u8 {
    let any = rng.byte();
    rng.pick(&[0, 0, 1, 1, 2, 3, 4, 5, 62, 63, 64, any])
}

/// Station and ballot numbers around the ranges, most of them there.
fn five_events(rng: &mut Rng, n: u8) -> [Event; 5] {
    let any = rng.byte();
    let number = |rng: &mut Rng| match rng.below(12) {
        0 => rng.pick(&[n, n.saturating_add(1), 31, 32, 255, any]),
        _ => rng.below(usize::from(n).clamp(1, 32)) as u8,
    };
    let (s, t) = (number(rng), number(rng));
    let b = some_ballot(rng);
    [
        Event::Claim { s, v: rng.next() as u32 },
        Event::Deliver { t, s: number(rng) },
        Event::Step { s: number(rng) },
        Event::Lose { s: number(rng) },
        Event::Answer { b, a: rng.pick(&[0, 1, 0, 1, 0, 1, 2, any]) },
    ]
}

fn any_counts(rng: &mut Rng) -> Counts {
    let (events, taken) = (rng.next() as usize, rng.next() as usize);
    Counts {
        events: rng.pick(&[0, 9, 10, 65_536, events, usize::MAX]),
        taken: taken >> rng.below(64),
        status: rng.byte(),
    }
}

/// The five events, LOOK, LOOK at all, a look at a ballot and the report.
fn through(judge: &mut ImageJudge, rng: &mut Rng, image: &[u8]) -> Checked {
    let n = image.get(1).copied().unwrap_or(0);
    for event in five_events(rng, n) {
        judge.event(image, event)?;
    }
    looked_at(judge, rng, image, n)
}

/// LOOK, LOOK at all, a look at a ballot and the report; and the model's own way to a record and back.
fn looked_at(judge: &mut ImageJudge, rng: &mut Rng, image: &[u8], n: u8) -> Checked {
    if let Ok(record) = image::decode(image) {
        same_bytes("the image of its record", image, image, &image::encode(&record))?;
    }
    let (any, size) = (rng.byte(), 8 * usize::from(n));
    judge.look(image, rng.pick(&[0, n.wrapping_sub(1), n, any, any % 32, any % 32, any % 4]))?;
    judge.look_all(image, rng.pick(&[size, size, size.saturating_sub(1), size + 1, 0, 255, 256, 300]))?;
    let b = some_ballot(rng);
    judge.look_ballot(image, b, rng.pick(&ROOMS))?;
    judge.report(image, any_counts(rng)).map(drop)
}

// ---- kinds of images

/// Every n with rules good and bad, over bytes of any length and over an image.
fn openings(judge: &mut ImageJudge, rng: &mut Rng) -> Checked {
    for n in 0..=255 {
        for rule in [0, 1, 2, 3, 4, 255] {
            judge.open(&rng.bytes(BYTES), n, rule)?;
            judge.open(&image::encode(&made_up::record(rng)), n, rule)?;
            let size = rng.pick(&[0, 1, 2, 3, 643, 899, 1155, 1282, 1284, 2000]);
            judge.open(&rng.bytes(size), n, rule)?;
        }
    }
    for _ in 0..1500 {
        let n = generate::stations(rng);
        for rule in [1, 2, rng.pick(&[0, 3, 255])] {
            judge.open(&rng.bytes(BYTES), n, rule)?;
        }
    }
    Ok(())
}

/// A good image cut short or made longer, and bytes of any length.
fn other_lengths(judge: &mut ImageJudge, rng: &mut Rng) -> Checked {
    for _ in 0..900 {
        let any = rng.below(2000);
        let size =
            rng.pick(&[0, 1, 2, 3, 23, 643, 651, 898, 899, 900, 1154, 1155, 1156, 1281, 1282, 1284, 1285, 2566, any]);
        let mut image = image::encode(&made_up::record(rng));
        image.resize(size, rng.byte());
        through(judge, rng, &image)?;
        through(judge, rng, &rng.clone().bytes(size))?;
    }
    Ok(())
}

/// Bytes of the right length: any; with the right version; with stages and marks that exist; with a head of stations too.
fn any_bytes(judge: &mut ImageJudge, rng: &mut Rng) -> Checked {
    for _ in 0..1500 {
        let mut image = rng.bytes(BYTES);
        through(judge, rng, &image)?;
        image[0] = VERSION;
        through(judge, rng, &image)?;
        image[STATIONS..VOTERS]
            .chunks_mut(STATION)
            .for_each(|entry| (entry[0], entry[1]) = (entry[0] % 8, entry[1] % 2));
        image[MARKS..].iter_mut().for_each(|mark| *mark %= 2);
        through(judge, rng, &image)?;
        (image[1], image[2]) = (rng.pick(&[1, 1, 2, 3, 8]), rng.pick(&[1, 2]));
        through(judge, rng, &image)?;
        image[STATIONS..VOTERS].chunks_mut(STATION).for_each(|entry| entry[2] = 0);
        through(judge, rng, &image)?;
    }
    Ok(())
}

/// Records made up around every clause of the record test, and events that are played on from there.
fn made_up_records(judge: &mut ImageJudge, rng: &mut Rng) -> Checked {
    for _ in 0..4000 {
        let record = made_up::record(rng);
        let mut image = image::encode(&record);
        same("the record of its image", &image, Ok(record), image::decode(&image))?;
        through(judge, rng, &image)?;
        for _ in 0..rng.below(30) {
            let record = image::decode(&image).map_err(|number| format!("the model's own image gives {number}"))?;
            image = judge.event(&image, made_up::event(rng, &record))?.1;
        }
        through(judge, rng, &image)?;
    }
    Ok(())
}

/// A station that awaits one of the last finish ballots, which is answered or not.
fn last_ballots(judge: &mut ImageJudge, rng: &mut Rng) -> Checked {
    for _ in 0..4000 {
        let mut record = Record { n: generate::stations(rng), rule: 2, ..made_up::record(rng) };
        let (s, round) = (rng.below(usize::from(record.n)), rng.pick(&[30, 31, 31]));
        record.stations.iter_mut().for_each(|station| station.cursor = 0);
        let station = &mut record.stations[s];
        (station.stage, station.round, station.lost) = (Stage::AwaitingFinish, round, false);
        let ballot = &mut record.ballots[2 * usize::from(round) + 1];
        (ballot.answered, ballot.answer) = (rng.chance(90), rng.chance(20));
        judge.event(&image::encode(&record), Event::Step { s: s as u8 })?;
    }
    Ok(())
}

/// A record reached from an opening, or a made-up one.
fn some_record(rng: &mut Rng) -> Record {
    if rng.chance(50) {
        return made_up::record(rng);
    }
    let (n, rule) = opening(rng);
    let events = random_list(rng, n, rule, 200);
    Record::run(&log::written(n, rule, &accepted(n, rule, &events)), usize::MAX).0
}

/// A ballot with any sets and marks, and looks and ANSWERs of it, each on what the one before left.
fn marked_ballots(judge: &mut ImageJudge, rng: &mut Rng) -> Checked {
    for _ in 0..4000 {
        let mut record = some_record(rng);
        let b = rng.below(usize::from(record.ballot_count()).max(1));
        record.ballots[b] = made_up::ballot(rng, record.n);
        let mut image = image::encode(&record);
        for _ in 0..4 {
            judge.look_ballot(&image, b as u8, rng.pick(&ROOMS))?;
            image = judge.event(&image, Event::Answer { b: b as u8, a: rng.pick(&[0, 1]) })?.1;
        }
    }
    Ok(())
}

/// A station that votes in a ballot with any sets, at times in one of them already, and is lost then; a look at the ballot after each.
fn votes(judge: &mut ImageJudge, rng: &mut Rng) -> Checked {
    for _ in 0..5000 {
        let mut record = some_record(rng);
        let s = rng.below(usize::from(record.n.clamp(1, 32)));
        let (finish, round) = (record.rule == 2 && rng.chance(50), rng.pick(&[0, 0, 0, 1, 2, 30, 31]));
        let station = &mut record.stations[s];
        (station.stage, station.round) = (if finish { Stage::VotingFinish } else { Stage::Voting }, round);
        (station.lost, station.cursor) = (false, station.cursor % record.n.max(1));
        let b = (round * record.rule.min(2) + u8::from(finish)) % 64;
        let mut ballot = made_up::ballot(rng, record.n);
        ballot.cast[rng.below(2)] |= u32::from(rng.chance(40)) << s;
        record.ballots[usize::from(b)] = ballot;
        let mut image = image::encode(&record);
        for event in [Event::Step { s: s as u8 }, Event::Lose { s: s as u8 }] {
            image = judge.event(&image, event)?.1;
            judge.look_ballot(&image, b, TALLY)?;
        }
    }
    Ok(())
}

/// A record's image as it is, then with one byte changed, then with one entry changed.
fn one_change(judge: &mut ImageJudge, rng: &mut Rng) -> Checked {
    for _ in 0..1500 {
        let record = some_record(rng);
        let mut image = image::encode(&record);
        through(judge, rng, &image)?;
        let any = rng.byte();
        let used = VOTERS.min(STATIONS + STATION * usize::from(record.n));
        let place = rng.pick(&[0, 1, 2, rng.clone().below(used), rng.clone().below(BYTES)]);
        image[place] = rng.pick(&[0, 1, 2, 3, 5, 7, 8, 31, 32, 33, 255, any]);
        through(judge, rng, &image)?;
        let mut broken = record;
        made_up::break_one(rng, &mut broken);
        through(judge, rng, &image::encode(&broken))?;
    }
    Ok(())
}

/// One bit changed at each place of a few images.
fn every_place(judge: &mut ImageJudge, rng: &mut Rng) -> Checked {
    for (n, rule, most) in [(1, 2, 9), (2, 1, 12), (3, 2, 60), (8, 1, 150), (17, 2, 600), (32, 1, 2000), (32, 2, 4000)]
    {
        let events = random_list(rng, n, rule, most);
        let record = Record::run(&log::written(n, rule, &accepted(n, rule, &events)), usize::MAX).0;
        let image = image::encode(&record);
        (0..BYTES).try_for_each(|place| one_place(judge, rng, &image, place))?;
    }
    Ok(())
}

fn one_place(judge: &mut ImageJudge, rng: &mut Rng, image: &[u8], place: usize) -> Checked {
    for bit in 0..8 {
        let mut changed = image.to_vec();
        changed[place] ^= 1 << bit;
        for event in near(rng, image[1], place) {
            judge.event(&changed, event)?;
        }
        judge.look(&changed, rng.byte() % image[1])?;
        let b = if place < VOTERS { some_ballot(rng) } else { ballot_at(place) };
        judge.look_ballot(&changed, b, TALLY)?;
    }
    let mut changed = image.to_vec();
    changed[place] ^= 1 << rng.below(8);
    looked_at(judge, rng, &changed, image[1])
}

/// The ballot whose voters or marks have this place.
fn ballot_at(place: usize) -> u8 {
    let b = match place < MARKS {
        true => place.saturating_sub(VOTERS) / BALLOT_VOTERS,
        false => (place - MARKS) / BALLOT_MARKS,
    };
    b as u8
}

/// Five events, of the station or the ballot that the place belongs to where there is one.
fn near(rng: &mut Rng, n: u8, place: usize) -> [Event; 5] {
    let s = (place.saturating_sub(STATIONS) / STATION) as u8;
    let b = ballot_at(place);
    let [claim, deliver, step, lose, answer] = five_events(rng, n);
    match (s < n, place >= VOTERS) {
        (true, _) => {
            let v = rng.next() as u32;
            [
                Event::Claim { s, v },
                Event::Deliver { t: s, s: rng.byte() % n },
                Event::Step { s },
                Event::Lose { s },
                answer,
            ]
        }
        (_, true) => [claim, deliver, step, lose, Event::Answer { b, a: rng.byte() % 2 }],
        _ => [claim, deliver, step, lose, answer],
    }
}

// ---- lists and logs

/// Lists beside their histories and logs, after every event.
fn short_lists(judge: &mut ImageJudge, rng: &mut Rng) -> Checked {
    for _ in 0..500 {
        let (n, rule) = opening(rng);
        let mut list = List::open(judge, &rng.bytes(BYTES), n, rule)?;
        for event in random_list(rng, n, rule, 60) {
            list.event(judge, event, true)?;
        }
    }
    Ok(())
}

/// Longer lists, beside their histories and logs now and then and at the end.
fn settlements(judge: &mut ImageJudge, rng: &mut Rng) -> Checked {
    for _ in 0..60 {
        let (n, rule) = opening(rng);
        let mut list = List::open(judge, &rng.bytes(BYTES), n, rule)?;
        let events = random_list(rng, n, rule, 6000);
        let last = events.len().saturating_sub(1);
        for (i, event) in events.into_iter().enumerate() {
            list.event(judge, event, i % 101 == 0 || i == last)?;
        }
        judge.shared += usize::from(list.deciders() > 1);
    }
    Ok(())
}

/// Logs with notes, damaged ones and any bytes, with limits, into images of any length.
fn logs(judge: &mut ImageJudge, rng: &mut Rng) -> Checked {
    for _ in 0..4000 {
        let (n, rule) = opening(rng);
        let events = random_list(rng, n, rule, 60);
        let log = generate::with_notes(rng, n, rule, &accepted(n, rule, &events));
        let limit = rng.pick(&[rng.clone().below(60), usize::MAX]);
        judge.play(&log, limit, BYTES)?;
        for _ in 0..4 {
            judge.play(&generate::damaged(rng, &log), limit, BYTES)?;
        }
        one_event_more(judge, rng, n, rule, &events)?;
        bad_openings(judge, rng, &log)?;
        judge.play(&log, limit, rng.pick(&[0, 1, 643, 899, 1155, 1282, 1284, 2000]))?;
    }
    Ok(())
}

/// A log that begins with any bytes, with an opening that is refused, with another field, or twice.
fn bad_openings(judge: &mut ImageJudge, rng: &mut Rng, log: &[u8]) -> Checked {
    judge.play(&generate::any_bytes(rng), usize::MAX, BYTES)?;
    for (n, rule) in [(rng.byte(), 1 + rng.byte() % 2), (1 + rng.byte() % 32, rng.byte())] {
        judge.play(&[1, 0, 2, n, rule], usize::MAX, BYTES)?;
    }
    judge.play(&log[..rng.below(3)], usize::MAX, BYTES)?;
    judge.play(&log[5..], usize::MAX, BYTES)?;
    judge.play(&[&log[..5], log].concat(), usize::MAX, BYTES).map(drop)
}

/// The accepted events, and after them one that may be refused.
fn one_event_more(judge: &mut ImageJudge, rng: &mut Rng, n: u8, rule: u8, events: &[Event]) -> Checked {
    let accepted = accepted(n, rule, events);
    let play = accepted.iter().fold(Play::open(n, rule).expect("a valid opening"), |mut play, &event| {
        play.event(event);
        play
    });
    let answered = play.answers.keys().next().into_iter().flat_map(|&b| [0, 1].map(|a| Event::Answer { b, a }));
    for event in five_events(rng, n).into_iter().chain([Event::Step { s: rng.byte() % n }; 3]).chain(answered) {
        let list = [&accepted[..], &[event]].concat();
        judge.play(&log::written(n, rule, &list), usize::MAX, BYTES)?;
    }
    Ok(())
}
