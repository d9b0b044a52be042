//! Compares the operations on images with the model of `image.rs` and of document 01, from a fixed seed.
//! `--self` compares the plain implementation instead, and needs no archive.

use conformance::again;
use conformance::generate::Rng;
use conformance::image_judge::{ImageJudge, LEAST};
use conformance::image_kinds;
use conformance::images::Images;
use conformance::judge::Checked;
use conformance::plain::Plain;
use conformance::voters;
use std::process::ExitCode;
use std::time::Instant;

const SEED: u64 = 20_261_117;
/// 42 has so many reasons: six clauses of 01's record test, ballot 63, and a byte that no record has.
const REASONS: usize = 8;

fn main() -> ExitCode {
    let plain = std::env::args().any(|word| word == "--self");
    let Some((name, subject)) = choose(plain) else {
        eprintln!("images: built without the archive; only --self can run");
        return ExitCode::from(2);
    };
    let start = Instant::now();
    let mut judge = ImageJudge::new(subject);
    println!("images: {name} beside the model, seed {SEED}");
    let compared = image_kinds::compare(&mut judge, &mut Rng::new(SEED)).and_then(|()| complete(&judge));
    print_counts(&judge);
    println!("{:.1} seconds", start.elapsed().as_secs_f64());
    match compared {
        Ok(()) => {
            println!("no difference");
            ExitCode::SUCCESS
        }
        Err(why) => {
            println!("DIFFERENCE: {why}");
            ExitCode::FAILURE
        }
    }
}

fn choose(plain: bool) -> Option<(&'static str, &'static dyn Images)> {
    if plain {
        return Some(("the plain implementation", &Plain));
    }
    #[cfg(feature = "archive")]
    return Some(("the exported library", &conformance::ffi::Archive));
    #[cfg(not(feature = "archive"))]
    None
}

fn print_counts(judge: &ImageJudge) {
    println!("\nOperations on images by number:\n{}", judge.table());
    judge.faults.iter().for_each(|(why, count)| println!("42 for {why}: {count}"));
    print!("{}", judge.again.lines("ANSWER of", &again::ON_RECORDS));
    println!("{} logs play an answer again", judge.logs_again);
    print!("{}", voters::lines(&judge.voters));
    println!(
        "{} rooms too small for a text; {} LOOKs and {} looks at a ballot beside a history; two or more stations decided in {} lists\n",
        judge.too_small, judge.histories, judge.tallies, judge.shared
    );
}

/// Every number of every operation was met often enough, and so were 42 for every reason, answers that come twice, and every sort
/// of ballots and votes.
fn complete(judge: &ImageJudge) -> Checked {
    let missing = judge.missing();
    let rare: Vec<_> = judge.faults.iter().filter(|(_, count)| **count < LEAST).collect();
    let sorts = [judge.again.missing(&again::ON_RECORDS, LEAST), voters::missing(&judge.voters, LEAST)].concat();
    if !missing.is_empty() || !rare.is_empty() || !sorts.is_empty() {
        return Err(format!("met fewer than {LEAST} times: {missing:?} {rare:?} {sorts:?}"));
    }
    if judge.logs_again < LEAST {
        return Err(format!("fewer than {LEAST} logs play an answer again"));
    }
    match judge.faults.len() == REASONS && judge.shared > 0 {
        true => Ok(()),
        false => Err("a reason for 42 was never met, or no decision was shared".to_string()),
    }
}
