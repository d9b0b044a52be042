//! Compares the exported library with the model of document 01 on many inputs, from a fixed seed.
//! `--self` compares the plain implementation instead, and needs no archive.

use conformance::again;
use conformance::closings;
use conformance::edges;
use conformance::generate::{self, accepted, opening, random_list, Rng};
use conformance::judge::{Checked, Judge};
use conformance::log::{self, Field};
use conformance::mergings;
use conformance::model::{Event, Play};
use conformance::plain::Plain;
use conformance::subject::Subject;
use std::collections::BTreeSet;
use std::process::ExitCode;
use std::time::Instant;

const SEED: u64 = 20_260_412;

fn main() -> ExitCode {
    let plain = std::env::args().any(|word| word == "--self");
    let Some((name, subject)) = choose(plain) else {
        eprintln!("conformance: built without the archive; only --self can run");
        return ExitCode::from(2);
    };
    let start = Instant::now();
    let mut judge = Judge::new(subject);
    println!("conformance: {name} beside the model of document 01, seed {SEED}");
    let compared = compare(&mut judge, &mut Rng::new(SEED)).and_then(|()| complete(&judge));
    print_counts(&judge);
    println!("{:.1} seconds", start.elapsed().as_secs_f64());
    match compared {
        Ok(()) => {
            println!("no difference");
            ExitCode::SUCCESS
        }
        Err(why) => {
            println!("DIFFERENCE: {why}");
            ExitCode::FAILURE
        }
    }
}

fn choose(plain: bool) -> Option<(&'static str, &'static dyn Subject)> {
    if plain {
        return Some(("the plain implementation", &Plain));
    }
    #[cfg(feature = "archive")]
    return Some(("the exported library", &conformance::ffi::Archive));
    #[cfg(not(feature = "archive"))]
    None
}

fn print_counts(judge: &Judge) {
    println!("\nComparisons by number and kind:\n{}", judge.table());
    println!(
        "{} texts compared in guarded buffers, {} of them `too long`; {} buffers too small\n",
        judge.reports, judge.too_long, judge.too_small
    );
    let seen = &judge.seen;
    println!(
        "Demand 3 was checked on {} lists: {} events accepted, {} refused; {} stations decided, in {} lists two or more; \
         {} supplied steps, {} stations at the bound",
        seen.lists, seen.accepted, seen.refused, seen.deciders, seen.shared, seen.supplied, seen.at_bound
    );
    print!("{}", seen.again.lines("ANSWER of", &again::IN_LISTS));
    println!("{} looks at a ballot by the record beside the history", judge.tallies);
    print!("{}", judge.closed.lines());
    print!("{}", judge.merged.lines());
}

/// Every status that a log can reach was reached, an answer came again in every way, and CLOSE and MERGE met their numbers.
fn complete(judge: &Judge) -> Checked {
    for left_out in [judge.not_closed(), judge.not_merged()] {
        if !left_out.is_empty() {
            return Err(left_out);
        }
    }
    let (missing, never) = (judge.missing(), judge.again.missing(&AGAIN, 1));
    let rare = judge.seen.again.missing(&again::IN_LISTS, LEAST);
    if !never.is_empty() || !rare.is_empty() {
        return Err(format!("no answer comes again in {never:?}; fewer than {LEAST} times in lists: {rare:?}"));
    }
    if missing.is_empty() && judge.seen.shared > 0 && judge.seen.at_bound > 0 {
        Ok(())
    } else {
        Err(format!("not compared: statuses {missing:?}, or no shared decision"))
    }
}

type Kind = (&'static str, fn(&mut Judge, &mut Rng) -> Checked);

const KINDS: [Kind; 10] = [
    ("edges", |judge, _| edges::check(judge)),
    ("openings", openings),
    ("every event", every_event),
    ("short lists", short_lists),
    ("settlements", settlements),
    ("long logs", long_logs),
    ("limits", limits),
    ("notes", notes),
    ("damaged", damaged),
    ("any bytes", any_bytes),
];

/// The kinds in which an answer has to come again.
const AGAIN: [&str; 8] =
    ["edges", "every event", "short lists", "settlements", "long logs", "limits", "notes", "damaged"];

/// So often at least for each sort, in lists.
const LEAST: usize = 100;

fn compare(judge: &mut Judge, rng: &mut Rng) -> Checked {
    for (name, kind) in KINDS {
        judge.kind(name);
        kind(judge, rng)?;
    }
    reads(judge)?;
    puts(judge, rng)?;
    closings::compare(judge)?;
    mergings::compare(judge)
}

/// Every n with rules good and bad.
fn openings(judge: &mut Judge, _: &mut Rng) -> Checked {
    for n in 0..=255 {
        for rule in [0, 1, 2, 3, 255] {
            judge.report(&log::written(n, rule, &[]))?;
            judge.report(&log::written(n, rule, &[Event::Lose { s: 0 }]))?;
        }
    }
    Ok(())
}

/// On many reached settlements of few stations, every event around the ranges.
fn every_event(judge: &mut Judge, rng: &mut Rng) -> Checked {
    for (n, rule, claims) in
        [(1, 1, [5, 0]), (1, 2, [0, 2]), (2, 1, [7, 9]), (2, 2, [1, 3]), (3, 1, [4, 4]), (3, 2, [3, 5])]
    {
        let mut waiting = vec![Vec::new()];
        let mut reached = BTreeSet::new();
        while reached.len() < 400 && !waiting.is_empty() {
            let newest = waiting.len() - rng.below(waiting.len().min(60)) - 1;
            let events = waiting.swap_remove(newest);
            if reached.insert(played(n, rule, &events)) {
                waiting.extend(after(judge, n, rule, &events, claims)?);
            }
        }
    }
    Ok(())
}

fn played(n: u8, rule: u8, events: &[Event]) -> Play {
    let mut play = Play::open(n, rule).expect("a valid opening");
    for &event in events {
        play.event(event);
    }
    play
}

/// Compares each event after these, and gives back the lists with those that changed something.
fn after(judge: &mut Judge, n: u8, rule: u8, events: &[Event], claims: [u32; 2]) -> Result<Vec<Vec<Event>>, String> {
    let mut longer = Vec::new();
    let before = played(n, rule, events);
    for event in events_around(n, claims) {
        let list = [events, &[event]].concat();
        judge.report(&log::written(n, rule, &list))?;
        if played(n, rule, &list) != before {
            longer.push(list);
        }
    }
    Ok(longer)
}

fn events_around(n: u8, claims: [u32; 2]) -> Vec<Event> {
    let mut events = Vec::new();
    for s in 0..=n {
        events.extend(claims.map(|v| Event::Claim { s, v }));
        events.extend((0..=n).map(|t| Event::Deliver { t, s }));
        events.extend([Event::Step { s }, Event::Lose { s }]);
    }
    for b in 0..5 {
        events.extend((0..3).map(|a| Event::Answer { b, a }));
    }
    events
}

fn short_lists(judge: &mut Judge, rng: &mut Rng) -> Checked {
    for _ in 0..1500 {
        let (n, rule) = opening(rng);
        let events = random_list(rng, n, rule, 60);
        judge.list(n, rule, &events)?;
    }
    Ok(())
}

fn settlements(judge: &mut Judge, rng: &mut Rng) -> Checked {
    for _ in 0..400 {
        let (n, rule) = opening(rng);
        let events = random_list(rng, n, rule, 12_000);
        judge.list(n, rule, &events)?;
    }
    Ok(())
}

/// Logs around 65,536 bytes, and with more than 65,536 events.
fn long_logs(judge: &mut Judge, rng: &mut Rng) -> Checked {
    for n in [2, 8, 32] {
        for rule in [1, 2] {
            let events = generate::long_list(rng, n, rule, 20_000, 10);
            let log = log::written(n, rule, &events);
            judge.list(n, rule, &events)?;
            for size in [65_535, 65_536, 65_537, 100_000] {
                let log = generate::padded(&log, size);
                judge.report(&log)?;
                judge.run(&log, events.len())?;
                judge.run(&log, usize::MAX)?;
            }
        }
    }
    let events = generate::long_list(rng, 32, 1, 4 * 66_000, 10);
    let log = log::written(32, 1, &events);
    judge.report(&log)?;
    [65_535, 65_536, 65_537, usize::MAX].into_iter().try_for_each(|limit| judge.run(&log, limit))
}

/// Each limit from 0 to one more than the events, and the largest.
fn limits(judge: &mut Judge, rng: &mut Rng) -> Checked {
    for _ in 0..150 {
        let (n, rule) = opening(rng);
        let events = random_list(rng, n, rule, 80);
        let events = accepted(n, rule, &events);
        let log = log::written(n, rule, &events);
        for limit in (0..=events.len() + 1).chain([65_536, usize::MAX]) {
            judge.run(&log, limit)?;
        }
    }
    Ok(())
}

fn notes(judge: &mut Judge, rng: &mut Rng) -> Checked {
    for _ in 0..1500 {
        let (n, rule) = opening(rng);
        let events = random_list(rng, n, rule, 60);
        let log = generate::with_notes(rng, n, rule, &accepted(n, rule, &events));
        judge.report(&log)?;
        judge.run(&log, rng.below(30))?;
    }
    Ok(())
}

fn damaged(judge: &mut Judge, rng: &mut Rng) -> Checked {
    for _ in 0..1500 {
        let (n, rule) = opening(rng);
        let events = random_list(rng, n, rule, 60);
        let log = log::written(n, rule, &accepted(n, rule, &events));
        for _ in 0..8 {
            let log = generate::damaged(rng, &log);
            judge.report(&log)?;
            judge.run(&log, rng.below(30))?;
        }
        judge.small_buffers(&log)?;
    }
    Ok(())
}

fn any_bytes(judge: &mut Judge, rng: &mut Rng) -> Checked {
    for _ in 0..30_000 {
        let bytes = generate::any_bytes(rng);
        judge.report(&bytes)?;
        judge.read(&bytes)?;
        let opened = [&log::written(2, 2, &[])[..], &bytes].concat();
        judge.report(&opened)?;
        judge.run(&opened, rng.below(4))?;
    }
    Ok(())
}

/// Every tag with lengths around those of the table, and bodies cut short, whole and with more after them.
fn reads(judge: &mut Judge) -> Checked {
    for tag in 0..=255 {
        for length in [0, 1, 2, 3, 4, 5, 6, 63, 64, 65, 255, 256, 257, 258, 261, 512, 65_535u16] {
            let [high, low] = length.to_be_bytes();
            let field = [&[tag, high, low][..], &vec![7; usize::from(length)]].concat();
            for cut in [0, 1, 2, 3, 4, field.len() - 1, field.len()] {
                judge.read(&field[..cut.min(field.len())])?;
            }
            judge.read(&[&field[..], &[1, 0, 2]].concat())?;
        }
    }
    Ok(())
}

/// Fields of every kind at places in, at and past the end of buffers with just enough room, one byte less and more.
fn puts(judge: &mut Judge, rng: &mut Rng) -> Checked {
    let known = [0x01, 0x10, 0x11, 0x12, 0x13, 0x14, 0x30];
    let unknown = (0..=255).filter(|tag| !known.contains(tag));
    unknown.into_iter().try_for_each(|tag| judge.put_unknown(tag))?;
    for _ in 0..4000 {
        let field = any_field(rng);
        let place = rng.below(90);
        let end = place + field.bytes().len();
        for size in [end - 1, end, end + 1, end + 40, place, place.saturating_sub(1), 0] {
            judge.put(&field, size, place)?;
        }
        judge.put(&field, 200, rng.pick(&[200, 201, usize::MAX - 2, usize::MAX]))?;
    }
    Ok(())
}

fn any_field(rng: &mut Rng) -> Field {
    let (x, y) = (rng.byte(), rng.byte());
    let note = rng.pick(&[0, 1, 5, 63, 64, 65, 66, 255, 256, 300]);
    match rng.below(7) {
        0 => Field::Opening { n: x, rule: y },
        1 => Field::Event(Event::Claim { s: x, v: rng.next() as u32 }),
        2 => Field::Event(Event::Deliver { t: x, s: y }),
        3 => Field::Event(Event::Step { s: x }),
        4 => Field::Event(Event::Lose { s: x }),
        5 => Field::Event(Event::Answer { b: x, a: y }),
        _ => Field::Note(rng.bytes(note)),
    }
}
