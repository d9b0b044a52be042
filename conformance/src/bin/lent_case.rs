//! Runs the program `lent_case` on its stored script and on random ones, and compares all that it writes with document 01's answers.
//! `--store` writes the stored script and its answers to crates/lent_case instead.

use conformance::again::ON_RECORDS;
use conformance::by_hand;
use conformance::compared::SORTS;
use conformance::generate::Rng;
use conformance::made_up::{self, Counts, Numbers};
use conformance::program::{self, Program, Told};
use conformance::script::{Script, ROOM};
use conformance::voters;
use std::process::ExitCode;
use std::time::Instant;

const SEED: u64 = 20_261_116;
const SCRIPTS: usize = 60;
const PROGRAM: Program = Program { name: "lent_case" };

/// Numbers that an event, LOOK or a look at a ballot of a made-up record has to meet, and RUN's statuses under small limits.
const EVENTS: [usize; 14] = [0, 1, 2, 3, 4, 5, 6, 7, 8, 9, 10, 11, 12, 42];
const LOOKS: [usize; 3] = [0, 1, 42];
const TALLIES: [usize; 3] = [0, 9, 42];
const RUNS: [usize; 2] = [0, 26];
/// Each sort of answers that come twice so often at least, and logs with one; each sort of ballots, votes and answers; and of comparisons.
const LEAST: usize = 20;

fn main() -> ExitCode {
    program::main(store, compare)
}

fn store() -> Told {
    let script = by_hand::script();
    PROGRAM.store(&script.bytes, script.text.as_bytes())?;
    Ok(format!("stored: a script of {} bytes, {} lines of answers", script.bytes.len(), script.lines.len()))
}

fn compare() -> Told {
    let start = Instant::now();
    let stored = by_hand::script();
    PROGRAM.has_stored(&stored.bytes, stored.text.as_bytes())?;
    run(&stored)?;
    let mut rng = Rng::new(SEED);
    let mut counts = Counts::default();
    let mut lines = 0;
    for _ in 0..SCRIPTS {
        let script = made_up::script(&mut rng, &mut counts);
        lines += script.lines.len();
        run(&script)?;
    }
    met("an event", &counts.events, &EVENTS)?;
    met("LOOK", &counts.looks, &LOOKS)?;
    met("a look at a ballot", &counts.tallies, &TALLIES)?;
    met("RUN", &counts.runs, &RUNS)?;
    met_often(&counts)?;
    println!(
        "lent_case beside document 01: the stored script, {} lines; {SCRIPTS} random ones, {lines} lines",
        stored.lines.len()
    );
    print_counts(&counts);
    Ok(format!("{:.1} seconds, no difference", start.elapsed().as_secs_f64()))
}

fn print_counts(counts: &Counts) {
    let table =
        |numbers: &Numbers| -> String { numbers.iter().map(|(number, count)| format!(" {number}: {count}")).collect() };
    println!("events by number:{}", table(&counts.events));
    println!("LOOKs by number:{}", table(&counts.looks));
    println!("looks at a ballot by number:{}", table(&counts.tallies));
    println!("RUNs by status:{}; {} of logs that play an answer again", table(&counts.runs), counts.runs_again);
    print!("{}", counts.again.lines("ANSWER of", &ON_RECORDS));
    print!("{}", voters::lines(&counts.voters));
    print!("{}", counts.compared.lines("words that differ", &SORTS));
}

fn met(what: &str, numbers: &Numbers, due: &[usize]) -> Result<(), String> {
    match due.iter().find(|number| !numbers.contains_key(number)) {
        Some(number) => Err(format!("no script met number {number} of {what}")),
        None => Ok(()),
    }
}

fn met_often(counts: &Counts) -> Result<(), String> {
    let rare = [
        counts.again.missing(&ON_RECORDS, LEAST),
        voters::missing(&counts.voters, LEAST),
        counts.compared.missing(&SORTS, LEAST),
    ]
    .concat();
    match rare.is_empty() && counts.runs_again >= LEAST {
        true => Ok(()),
        false => Err(format!("fewer than {LEAST} times: {rare:?}, or a RUN that plays an answer again")),
    }
}

/// The program's text for a script is document 01's, byte by byte.
fn run(script: &Script) -> Result<(), String> {
    assert!(script.bytes.len() <= ROOM, "the script is longer than the program reads");
    let text = PROGRAM.written(&script.bytes)?;
    if text == script.text.as_bytes() {
        return Ok(());
    }
    let (told, due) = (text.split(|byte| *byte == b'\n'), script.text.split('\n'));
    let (line, (told, due)) =
        told.zip(due).enumerate().find(|(_, (told, due))| *told != due.as_bytes()).ok_or("too few lines")?;
    let told = String::from_utf8_lossy(told);
    let (command, record) = script.lines.get(line).ok_or("a line too many")?;
    Err(format!("line {}\n  document 01: {due}\n  the program: {told}\n  {command}\n  on {record:?}", line + 1))
}
