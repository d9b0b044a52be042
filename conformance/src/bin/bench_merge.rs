//! Events per second of two logs made one, by the library and by the plain implementation on the same logs, in turns. Nothing here fails on
//! speed. `--self` sets the plain one beside itself.

use conformance::generate::{long_list, Rng};
use conformance::log::{written, Field};
use conformance::merging::{self, Kiosk};
use conformance::merging_kinds::{halves, Logs};
use conformance::model::Event;
use conformance::plain::Plain;
use conformance::stack;
use conformance::subject::Subject;
use conformance::timing::in_turns;
use std::hint::black_box;

const SEED: u64 = 20_260_412;
/// The bytes of each log, but for those without a delay.
const SIZE: usize = 65_536;

fn main() {
    if std::env::args().any(|word| word == "--self") {
        return rows(&Plain);
    }
    #[cfg(feature = "archive")]
    rows(&conformance::ffi::Archive);
    #[cfg(not(feature = "archive"))]
    {
        eprintln!("bench_merge: built without the archive; only --self can run");
        std::process::exit(2);
    }
}

fn rows(library: &(impl Subject + Sync)) {
    println!("\nMERGE, events of the one log per second; half of the stations in each log, the answers in both,");
    println!("one of them again at the end up to 64 KiB; the ratio is the plain one's over the library's");
    println!("{:<34}{:>7}{:>8}{:>14}{:>14}{:>8}", "logs", "bytes", "events", "library", "plain", "ratio");
    for rule in [1, 2] {
        for n in [2, 8, 32] {
            row(library, &format!("{n} stations, rule {rule}, late claims"), &late(n, rule));
        }
        row(library, &format!("32 stations, rule {rule}, no delay"), &no_delay(rule));
    }
    let [first, second] = late(32, 2);
    row(library, "32 stations, rule 2, logs swapped", &[second.clone(), first.clone()]);
    let used = |subject: &(dyn Subject + Sync)| {
        stack::bytes_used(|| _ = black_box(subject.merge(&first, &second, &mut vec![0; 2 * SIZE])))
    };
    println!("stack for one MERGE: library {} bytes, plain {} bytes", used(library), used(&Plain));
}

/// The longest such logs of at most 64 KiB, and the answer of ballot 0 again and again after them. Of two stations only one seeks.
fn late(n: u8, rule: u8) -> Logs {
    let most = if n == 2 { SIZE } else { 2 * SIZE };
    let fits = |logs: &Logs| logs.iter().all(|log| log.len() <= SIZE);
    let mut logs = (0..=most).rev().step_by(4096).map(|bytes| dealt(n, rule, bytes));
    let again = Field::Event(Event::Answer { b: 0, a: 1 }).bytes();
    logs.find(fits).expect("logs that fit").map(|log| {
        let more = again.repeat((SIZE - log.len()) / again.len());
        [log, more].concat()
    })
}

/// 32 stations from their claims to the last decision.
fn no_delay(rule: u8) -> Logs {
    dealt(32, rule, 0)
}

fn dealt(n: u8, rule: u8, bytes: usize) -> Logs {
    let events = long_list(&mut Rng::new(SEED), n, rule, bytes, 0);
    halves(n, &events).map(|events| written(n, rule, &events))
}

fn row(library: &impl Subject, name: &str, [first, second]: &Logs) {
    let model = merging::merge(first, second).expect("logs that go together");
    let (size, events) = (model.len(), Kiosk::read(&model).expect("a log").events.len());
    let (mut out, mut plain_out) = (vec![0; size], vec![0; size]);
    assert_eq!(library.merge(first, second, &mut out), size as u64, "the library's count is not the model's");
    assert_eq!(out, model, "the library's log is not the model's");
    let mut by_library = || _ = black_box(library.merge(black_box(first), black_box(second), &mut out));
    let mut by_plain = || _ = black_box(Plain.merge(black_box(first), black_box(second), &mut plain_out));
    let [library, plain] = in_turns([&mut by_library, &mut by_plain]);
    let rate = |seconds: f64| events as f64 / seconds;
    let ratio = rate(plain) / rate(library);
    println!("{name:<34}{size:>7}{events:>8}{:>14.0}{:>14.0}{ratio:>8.2}", rate(library), rate(plain));
}
