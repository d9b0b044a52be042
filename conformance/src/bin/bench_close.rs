//! Events per second of closing logs that are written, by the library and by the plain implementation on the same logs,
//! in turns. Nothing here fails on speed. `--self` sets the plain one beside itself.

use conformance::closing;
use conformance::closings::only_claimed;
use conformance::generate::Rng;
use conformance::log::written;
use conformance::model::Event;
use conformance::plain::Plain;
use conformance::stack;
use conformance::subject::Subject;
use conformance::timing::in_turns;
use std::hint::black_box;

const SEED: u64 = 20_260_412;
/// Room for every closing log.
const ROOM: usize = 153_024;

fn main() {
    if std::env::args().any(|word| word == "--self") {
        return rows(&Plain);
    }
    #[cfg(feature = "archive")]
    rows(&conformance::ffi::Archive);
    #[cfg(not(feature = "archive"))]
    {
        eprintln!("bench_close: built without the archive; only --self can run");
        std::process::exit(2);
    }
}

fn rows(library: &(impl Subject + Sync)) {
    println!("\nCLOSE of 32 stations that have only claimed, events of the closing log per second;");
    println!("the ratio is the plain one's over the library's");
    println!("{:<34}{:>7}{:>8}{:>14}{:>14}{:>8}", "claims", "bytes", "events", "library", "plain", "ratio");
    row(library, "rule 1", &claimed(1, 32));
    row(library, "rule 2, of 8 bits", &claimed(2, 8));
    row(library, "rule 2, of 32 bits", &claimed(2, 32));
    row(library, "rule 2, the longest of these", &only_claimed());
    let (log, plain) = (only_claimed(), &Plain);
    let library = stack::bytes_used(|| _ = black_box(library.close(&log, usize::MAX, 1, &mut vec![0; ROOM])));
    let plain = stack::bytes_used(|| _ = black_box(plain.close(&log, usize::MAX, 1, &mut vec![0; ROOM])));
    println!("stack for one CLOSE: library {library} bytes, plain {plain} bytes");
}

/// A log in which 32 stations claim numbers of at most so many bits.
fn claimed(rule: u8, bits: u32) -> Vec<u8> {
    let mut rng = Rng::new(SEED);
    let events: Vec<Event> = (0..32).map(|s| Event::Claim { s, v: rng.next() as u32 >> (32 - bits) }).collect();
    written(32, rule, &events)
}

fn row(library: &impl Subject, name: &str, log: &[u8]) {
    let (_, model) = closing::of_log(log, usize::MAX, 1).expect("a log from an opening");
    let (size, events) = (model.bytes().len(), model.events.len());
    let (mut out, mut plain_out) = (vec![0; ROOM], vec![0; ROOM]);
    assert_eq!(library.close(log, usize::MAX, 1, &mut out), size as u64, "the library's count is not the model's");
    assert_eq!(&out[..size], model.bytes(), "the library's closing log is not the model's");
    let mut by_library = || _ = black_box(library.close(black_box(log), usize::MAX, 1, &mut out));
    let mut by_plain = || _ = black_box(Plain.close(black_box(log), usize::MAX, 1, &mut plain_out));
    let [library, plain] = in_turns([&mut by_library, &mut by_plain]);
    let rate = |seconds: f64| events as f64 / seconds;
    let ratio = rate(plain) / rate(library);
    println!("{name:<34}{size:>7}{events:>8}{:>14.0}{:>14.0}{ratio:>8.2}", rate(library), rate(plain));
}
