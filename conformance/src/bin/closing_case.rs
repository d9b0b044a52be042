//! Runs the program `closing_case` on its stored cases and on random ones, and compares all that it writes with
//! document 02's answers.
//! `--store` writes the stored cases and their answers to crates/closing_case instead.

use conformance::again::Met;
use conformance::closing_case::{Case, MOST, SORTS};
use conformance::closing_kinds;
use conformance::generate::Rng;
use conformance::made_up::Numbers;
use conformance::program::{self, Program, Told};
use std::process::ExitCode;
use std::time::Instant;

const SEED: u64 = 20_261_119;
const RUNS: usize = 120;
const PROGRAM: Program = Program { name: "closing_case" };

/// Numbers that have to be met, and each sort so often at least.
const NUMBERS: [usize; 5] = [0, 10, 30, 42, 43];
const LEAST: usize = 10;

fn main() -> ExitCode {
    program::main(store, compare)
}

fn bytes(cases: &[Case]) -> Vec<u8> {
    cases.iter().flat_map(Case::bytes).collect()
}

fn text(cases: &[Case]) -> Vec<u8> {
    cases.iter().flat_map(|case| case.text().into_bytes()).collect()
}

fn store() -> Told {
    let cases = closing_kinds::by_hand();
    PROGRAM.store(&bytes(&cases), &text(&cases))?;
    Ok(format!("stored: {} cases", cases.len()))
}

fn compare() -> Told {
    let start = Instant::now();
    let stored = closing_kinds::by_hand();
    PROGRAM.has_stored(&bytes(&stored), &text(&stored))?;
    run(&stored)?;
    let mut rng = Rng::new(SEED);
    let (mut numbers, mut sorts) = (Numbers::new(), Met::default());
    for _ in 0..RUNS {
        let cases: Vec<Case> = (0..MOST).map(|_| closing_kinds::random(&mut rng)).collect();
        run(&cases)?;
        for case in &cases {
            *numbers.entry(case.number().into()).or_default() += 1;
            sorts.add(case.sorts());
        }
    }
    let table: String = numbers.iter().map(|(number, count)| format!(" {number}: {count}")).collect();
    println!("closing_case beside document 02: {} stored cases, {} random ones", stored.len(), RUNS * MOST);
    println!("CLOSE by number:{table}");
    print!("{}", sorts.lines("CLOSE", &SORTS));
    complete(&numbers, &sorts)?;
    Ok(format!("{:.1} seconds, no difference", start.elapsed().as_secs_f64()))
}

fn complete(numbers: &Numbers, sorts: &Met) -> Result<(), String> {
    let never: Vec<usize> = NUMBERS.into_iter().filter(|number| !numbers.contains_key(number)).collect();
    let rare = sorts.missing(&SORTS, LEAST);
    match never.is_empty() && rare.is_empty() {
        true => Ok(()),
        false => Err(format!("no case met {never:?}, or fewer than {LEAST} met {rare:?}")),
    }
}

/// What the program writes is document 02's, byte by byte.
fn run(cases: &[Case]) -> Result<(), String> {
    let written = PROGRAM.written(&bytes(cases))?;
    let mut rest = &written[..];
    for case in cases {
        let due = case.text();
        let told = rest.get(..due.len()).unwrap_or(rest);
        if told != due.as_bytes() {
            let told = String::from_utf8_lossy(told);
            return Err(format!("{case:?}\n  document 02:\n{due}  the program:\n{told}"));
        }
        rest = &rest[due.len()..];
    }
    match rest.is_empty() {
        true => Ok(()),
        false => Err(format!("after {} cases the program writes more", cases.len())),
    }
}
