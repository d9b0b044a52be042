//! Nanoseconds of an operation on an image, beside the same on a plain Rust struct with the same record test, in turns.
//! Nothing here fails on speed. `--self` sets the plain implementation on bytes beside that on its struct.

use conformance::generate::{long_list, Rng};
use conformance::image::{encode, BYTES, TALLY};
use conformance::images::Images;
use conformance::log::written;
use conformance::model::Event;
use conformance::plain::{Plain, Settlement};
use conformance::record::Record;
use conformance::stack;
use conformance::timing::in_turns;
use std::hint::black_box;

const SEED: u64 = 20_260_412;
const SIZES: [u8; 3] = [2, 8, 32];
/// So many calls between two looks at the clock.
const BATCH: usize = 100;

fn main() {
    if std::env::args().any(|word| word == "--self") {
        return rows(&Plain);
    }
    #[cfg(feature = "archive")]
    rows(&conformance::ffi::Archive);
    #[cfg(not(feature = "archive"))]
    {
        eprintln!("bench_images: built without the archive; only --self can run");
        std::process::exit(2);
    }
}

fn rows(library: &(impl Images + Sync)) {
    println!("\nnanoseconds of an operation on an image of {BYTES} bytes; the plain one is on a struct, with the record test;");
    println!("the ratio is the library's over the plain one's");
    println!("{:<42}{:>9}{:>9}{:>8}", "operation", "library", "plain", "ratio");
    for (rule, n) in [1, 2].into_iter().flat_map(|rule| SIZES.map(|n| (rule, n))) {
        events(library, n, rule);
    }
    for n in SIZES {
        look(library, n);
        look_all(library, n);
        look_ballot(library, n);
    }
    open(library, 32);
    stacks(library);
}

/// One row: calls of so many operations each.
fn row(name: String, operations: usize, library: &mut dyn FnMut(), plain: &mut dyn FnMut()) {
    let nanoseconds = |seconds: f64| 1e9 * seconds / operations as f64;
    let [library, plain] = in_turns([library, plain]).map(nanoseconds);
    println!("{name:<42}{library:>9.1}{plain:>9.1}{:>8.2}", library / plain);
}

/// Events from an opening to the last decision, all of them accepted.
fn settling(n: u8, rule: u8) -> Vec<Event> {
    long_list(&mut Rng::new(SEED), n, rule, 0, 0)
}

fn opened(library: &impl Images, n: u8, rule: u8) -> ([u8; BYTES], Settlement) {
    let mut image = [0; BYTES];
    assert_eq!(library.open(&mut image, n, rule), 0, "an opening that is accepted");
    (image, Settlement::open(n, rule).expect("an opening that is accepted"))
}

/// The image and the struct at the end, where all have decided; the image is the model's.
fn settled(library: &impl Images, n: u8, rule: u8) -> ([u8; BYTES], Settlement) {
    let (mut image, mut settlement) = opened(library, n, rule);
    let events = settling(n, rule);
    for &event in &events {
        assert_eq!((library.event(&mut image, event), settlement.event(event)), (0, 0), "{event:?} is accepted");
    }
    let model = Record::run(&written(n, rule, &events), usize::MAX).0;
    assert!((0..n).all(|s| model.look(s).decided), "a station is undecided");
    assert_eq!(&image[..], &encode(&model)[..], "the library's image is not the model's");
    (image, settlement)
}

fn events(library: &impl Images, n: u8, rule: u8) {
    settled(library, n, rule);
    let events = settling(n, rule);
    let name = format!("event, {n} stations, rule {rule} ({} events)", events.len());
    let (start, first) = opened(library, n, rule);
    let (mut image, mut settlement) = (start, first.clone());
    let mut by_library = || {
        image = start;
        events.iter().for_each(|&event| done(library.event(&mut image, event)));
    };
    let mut by_plain = || {
        settlement.clone_from(&first);
        events.iter().for_each(|&event| done(settlement.event(event)));
    };
    row(name, events.len(), &mut by_library, &mut by_plain);
}

fn look(library: &impl Images, n: u8) {
    let (image, settlement) = settled(library, n, 2);
    let stations = || (0..n).cycle().take(BATCH);
    let mut by_library = || stations().for_each(|s| done(library.look(black_box(&image), s)));
    let mut by_plain = || stations().for_each(|s| done(black_box(&settlement).look(s)));
    row(format!("LOOK, {n} stations, rule 2"), BATCH, &mut by_library, &mut by_plain);
}

fn look_all(library: &impl Images, n: u8) {
    let (image, settlement) = settled(library, n, 2);
    let (mut out, mut plain_out) = ([0; 256], [0; 256]);
    let mut by_library = || (0..BATCH).for_each(|_| done(library.look_all(black_box(&image), &mut out)));
    let mut by_plain = || (0..BATCH).for_each(|_| done(black_box(&settlement).look_all(&mut plain_out)));
    row(format!("LOOK at all {n} stations, rule 2"), BATCH, &mut by_library, &mut by_plain);
}

fn look_ballot(library: &impl Images, n: u8) {
    let (image, settlement) = settled(library, n, 2);
    let (mut out, mut plain_out) = ([0; TALLY], [0; TALLY]);
    let ballots = || (0..64).cycle().take(BATCH);
    let mut by_library = || ballots().for_each(|b| done(library.look_ballot(black_box(&image), b, &mut out)));
    let mut by_plain = || ballots().for_each(|b| done(black_box(&settlement).look_ballot(b, &mut plain_out)));
    row(format!("LOOK at a ballot, {n} stations, rule 2"), BATCH, &mut by_library, &mut by_plain);
}

fn open(library: &impl Images, n: u8) {
    let (mut image, mut settlement) = opened(library, n, 2);
    let mut by_library = || (0..BATCH).for_each(|_| done(library.open(&mut image, black_box(n), 2)));
    let mut by_plain = || {
        for _ in 0..BATCH {
            settlement = Settlement::open(black_box(n), 2).expect("an opening that is accepted");
            black_box(&mut settlement);
        }
    };
    row(format!("OPEN, {n} stations, rule 2"), BATCH, &mut by_library, &mut by_plain);
}

/// Bytes of stack under operations on an image of 32 stations; of events, the most that any takes.
fn stacks(library: &(impl Images + Sync)) {
    let (start, _) = opened(library, 32, 2);
    let (image, _) = settled(library, 32, 2);
    let events = settling(32, 2);
    let log = written(32, 2, &events);
    let event = stack::bytes_used(|| {
        let mut image = start.to_vec();
        events.iter().for_each(|&event| done(library.event(&mut image, event)));
    });
    let look_all = stack::bytes_used(|| done(library.look_all(&image, &mut vec![0; 256])));
    let look_ballot = stack::bytes_used(|| done(library.look_ballot(&image, 0, &mut vec![0; TALLY])));
    let report = stack::bytes_used(|| done(library.image_report(&image, 0, 0, 0, &mut vec![0; 4096])));
    let play = stack::bytes_used(|| done(library.play(&log, usize::MAX, &mut vec![0; BYTES])));
    println!("stack: an event {event} bytes, LOOK at all {look_all}, at a ballot {look_ballot}, report {report}, play {play}");
}

/// Keeps an answer that nobody needs.
fn done<T>(answer: T) {
    black_box(answer);
}
