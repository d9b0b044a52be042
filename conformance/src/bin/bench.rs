//! Events per second of the exported report, and of the same by single events, each beside the plain one
//! on the same logs, in turns.
//! Nothing here fails on speed. `--self` sets the plain one beside itself.

use conformance::generate::{long_list, Rng};
use conformance::log::written;
use conformance::plain::{run, Plain};
use conformance::stack;
use conformance::subject::Subject;
use conformance::text::{settle, MOST};
use conformance::timing::{in_turns, TURNS};
use std::hint::black_box;

const SEED: u64 = 20_260_412;

/// Writes the text of a log, and answers its length.
type Report = fn(&[u8], &mut [u8]) -> usize;

const PLAIN: Report = |log, out| Plain.report(log, out);

/// A log, and what the row calls it.
type Named = (String, Vec<u8>);

fn main() {
    let Some(library) = library() else {
        eprintln!("bench: built without the archive; only --self can run");
        std::process::exit(2);
    };
    println!("report, events per second: release builds, {TURNS} turns each, buffers not cleared between calls;");
    println!("the ratio is the plain one's over the library's");
    println!("{:<34}{:>7}{:>8}{:>14}{:>14}{:>8}", "log", "bytes", "events", "library", "plain", "ratio");
    logs().iter().for_each(|log| one_log(library, log));
    for (name, single) in single_events() {
        println!("{name}:");
        few_logs().iter().for_each(|log| one_log(single, log));
    }
    let [library, plain] = [library, PLAIN].map(stack_bytes);
    println!("stack for one report: library {library} bytes, plain {plain} bytes");
}

/// Bytes of stack under one report of 32 stations.
fn stack_bytes(report: Report) -> usize {
    let log = full_log(2);
    stack::bytes_used(|| {
        black_box(report(&log, &mut vec![0; 4096]));
    })
}

fn itself() -> bool {
    std::env::args().any(|word| word == "--self")
}

fn library() -> Option<Report> {
    if itself() {
        return Some(PLAIN);
    }
    #[cfg(feature = "archive")]
    return Some(|log, out| conformance::ffi::Archive.report(log, out));
    #[cfg(not(feature = "archive"))]
    None
}

/// The report by single events, where the library for it is linked; `play_through` lends a local.
fn single_events() -> Vec<(&'static str, Report)> {
    if itself() {
        return Vec::new();
    }
    #[cfg(feature = "one_by_one")]
    return vec![
        ("an event by value, `play`", |log, out| conformance::ffi::one_by_one(false, log, MOST, out)),
        ("a lent event, `play_through`", |log, out| conformance::ffi::one_by_one(true, log, MOST, out)),
    ];
    #[cfg(not(feature = "one_by_one"))]
    Vec::new()
}

/// Logs that end settled: for each rule, 64 KiB of 2, 8 and 32 stations with claims that come late,
/// and 32 stations without that delay.
fn logs() -> Vec<Named> {
    let of_rule = |rule| [late(2, rule), late(8, rule), late(32, rule), no_delay(rule)];
    [1, 2].into_iter().flat_map(of_rule).collect()
}

/// Those that single events are timed on.
fn few_logs() -> [Named; 4] {
    [late(2, 1), no_delay(1), late(2, 2), no_delay(2)]
}

fn late(n: u8, rule: u8) -> Named {
    (format!("{n} stations, rule {rule}, late claims"), late_log(n, rule))
}

fn no_delay(rule: u8) -> Named {
    (format!("32 stations, rule {rule}, no delay"), full_log(rule))
}

/// 32 stations from their claims to the last decision.
fn full_log(rule: u8) -> Vec<u8> {
    written(32, rule, &long_list(&mut Rng::new(SEED), 32, rule, 0, 0))
}

/// The longest of these logs that the program settle takes.
fn late_log(n: u8, rule: u8) -> Vec<u8> {
    let seeking = (0..MOST).rev().step_by(1024);
    let log = |bytes| written(n, rule, &long_list(&mut Rng::new(SEED), n, rule, bytes, 0));
    seeking.map(log).find(|log| log.len() <= MOST).expect("a log that fits")
}

fn one_log(library: Report, (name, log): &Named) {
    let mut text = vec![0; 4096];
    let written = library(log, &mut text);
    assert_eq!(settle(log).as_bytes(), &text[..written], "the library's text is not the model's");
    assert!(settle(log).lines().skip(1).all(|line| line.contains("decided")), "a station is undecided");
    let events = run(log, MOST).events;
    let mut plain_text = text.clone();
    let mut by_library = || _ = black_box(library(black_box(log), &mut text));
    let mut by_plain = || _ = black_box(PLAIN(black_box(log), &mut plain_text));
    let [library, plain] = in_turns([&mut by_library, &mut by_plain]);
    let rate = |seconds: f64| events as f64 / seconds;
    let (size, ratio) = (log.len(), rate(plain) / rate(library));
    println!("{name:<34}{size:>7}{events:>8}{:>14.0}{:>14.0}{ratio:>8.2}", rate(library), rate(plain));
}
