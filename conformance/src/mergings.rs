//! What MERGE is compared on (document 02, A.5), from a fixed seed.

use crate::again::Met;
use crate::edges;
use crate::generate::{self, Rng};
use crate::judge::{hex, Checked, Judge};
use crate::log::{self, Field};
use crate::merging::{self, Kiosk};
use crate::merging_kinds::{self as kinds, Logs};
use crate::merging_rows;
use crate::merging_sorts as sorts;
use crate::model::Event;

const SEED: u64 = 20_261_120;

/// Every number that MERGE has to meet, and so often at least; each sort of logs too.
pub const DUE: [u8; 13] = [0, 20, 21, 22, 23, 24, 25, 30, 40, 41, 60, 61, 62];
pub const LEAST: usize = 100;
/// Logs of so many bytes are of no sort: that would take long to find out.
const LONG: usize = 20_000;

/// How much was compared.
#[derive(Default)]
pub struct Merged {
    /// Pairs of logs, and those that made one.
    pub pairs: usize,
    pub accepted: usize,
    pub events: usize,
    /// Pairs of which every order was tried: those with an order that is accepted whole, and those without.
    pub some_order: usize,
    pub no_order: usize,
    pub longest: usize,
    pub sorts: Met,
}

impl Merged {
    pub fn lines(&self) -> String {
        let Merged { pairs, accepted, events, some_order, no_order, longest, .. } = self;
        let sorts = self.sorts.lines("MERGE:", &sorts::all());
        format!(
            "{pairs} pairs of logs; {accepted} made one log, of {events} events altogether, the longest of {longest} bytes: \
             accepted whole, and cut in two again the same\n\
             every order of short logs was tried: {some_order} pairs have one that is accepted whole, and are merged so; \
             {no_order} have none, and give 62\n\
             {sorts}"
        )
    }
}

pub fn compare(judge: &mut Judge) -> Checked {
    let mut rng = Rng::new(SEED);
    merging_rows::check(judge)?;
    openings(judge)?;
    short_lists(judge)?;
    for (times, kind) in kinds::KINDS {
        (0..times).try_for_each(|_| merge(judge, &kind(&mut rng)))?;
    }
    cuts(judge, &mut rng)?;
    long_logs(judge, &mut rng)
}

/// MERGE of two logs. Accepted, in buffers of just its bytes, one less, none and more; refused, of none, some and all that both logs have.
pub fn merge(judge: &mut Judge, logs: &Logs) -> Checked {
    let [first, second] = logs;
    judge.merged.pairs += 1;
    if first.len() + second.len() < LONG {
        sorts::count(&mut judge.merged.sorts, first, second);
    }
    let due = merging::merge(first, second);
    let rooms = match &due {
        Ok(bytes) => vec![bytes.len(), bytes.len() - 1, 0, bytes.len() + 1 + judge.merged.pairs % 200],
        Err(_) => vec![0, 1 + judge.merged.pairs % 50, first.len() + second.len()],
    };
    for room in rooms {
        judge.merge(first, second, room, due.as_deref().map_err(|number| *number))?;
    }
    if let (Ok(one), Ok(other)) = (Kiosk::read(first), Kiosk::read(second)) {
        promised(judge, &one, &other, due)
            .map_err(|why| format!("request A.5: {why}\n  first: {}\n  second: {}", hex(first), hex(second)))?;
    }
    Ok(())
}

/// What holds of the one log; and of short logs what trying every order finds.
fn promised(judge: &mut Judge, one: &Kiosk, other: &Kiosk, due: Result<Vec<u8>, u8>) -> Checked {
    let (first, second) = (&one.events, &other.events);
    if let Ok(bytes) = &due {
        merging::check(one, other, bytes)?;
        judge.merged.accepted += 1;
        judge.merged.events += first.len() + second.len();
        judge.merged.longest = judge.merged.longest.max(bytes.len());
    }
    if !matches!(due, Ok(_) | Err(62)) || !merging::is_short(first, second) {
        return Ok(());
    }
    let found = merging::any_order(&one.opened, first, second);
    match found.is_some() {
        true => judge.merged.some_order += 1,
        false => judge.merged.no_order += 1,
    }
    let found = found.map(|events| log::written(one.opened.n, one.opened.rule_number(), &events));
    match found == due.ok() {
        true => Ok(()),
        false => Err(format!("trying every order finds {:?}", found.map(|log| hex(&log)))),
    }
}

// ---- many

/// Every number of stations with rules good and bad, in either log and in both; and no byte at all.
fn openings(judge: &mut Judge) -> Checked {
    let good = log::written(2, 1, &[]);
    for (n, rule) in (0..=255).flat_map(|n| [0, 1, 2, 3].map(|rule| (n, rule))) {
        let (opening, event) = (log::written(n, rule, &[]), log::written(n, rule, &[Event::Lose { s: 0 }]));
        merge(judge, &[opening.clone(), good.clone()])?;
        merge(judge, &[good.clone(), opening.clone()])?;
        merge(judge, &[opening.clone(), event.clone()])?;
        merge(judge, &[event, opening])?;
    }
    merge(judge, &[Vec::new(), Vec::new()])?;
    merge(judge, &[Vec::new(), good.clone()])?;
    merge(judge, &[good, Vec::new()])
}

/// After what each of two stations has done, every pair of lists of at most two events more.
fn short_lists(judge: &mut Judge) -> Checked {
    for rule in [1, 2] {
        for [first, second] in kinds::beginnings() {
            for more in kinds::lists_of(0) {
                for other in kinds::lists_of(1) {
                    let one = log::written(2, rule, &[&first[..], &more].concat());
                    let two = log::written(2, rule, &[&second[..], &other].concat());
                    merge(judge, &[one, two])?;
                }
            }
        }
    }
    Ok(())
}

/// Every beginning of one log and of the other, fields cut short too.
fn cuts(judge: &mut Judge, rng: &mut Rng) -> Checked {
    for _ in 0..60 {
        let [first, second] = kinds::dealt(rng);
        for cut in 0..=first.len() {
            merge(judge, &[first[..cut].to_vec(), second.clone()])?;
        }
        for cut in 0..=second.len() {
            merge(judge, &[first.clone(), second[..cut].to_vec()])?;
        }
    }
    Ok(())
}

/// Logs of more than 65,536 bytes, by their events or by notes, and what an event refused at their end does.
fn long_logs(judge: &mut Judge, rng: &mut Rng) -> Checked {
    for rule in [1, 2] {
        let events = generate::long_list(rng, 32, rule, 150_000, 5);
        let [first, second] = kinds::halves(32, &events).map(|events| log::written(32, rule, &events));
        merge(judge, &[second.clone(), first.clone()])?;
        let refused = Field::Event(Event::Step { s: 0 }).bytes();
        merge(judge, &[[first, refused].concat(), second])?;
    }
    let [first, second] = kinds::dealt(rng);
    merge(judge, &[generate::padded(&first, 65_537), generate::padded(&second, 70_000)])?;
    let [first, second] = long_wait();
    merge(judge, &[first.clone(), second.clone()])?;
    merge(judge, &[second, first])
}

/// The first log waits for a claim that the second has behind more than 65,536 events.
fn long_wait() -> Logs {
    let begin = edges::bytes_of("open 3 1; claim 2 7; deliver 2 2; step 2, 2");
    let answers = edges::bytes_of("answer 0 0").repeat(70_000);
    let end = edges::bytes_of("claim 1 9; lose 1");
    [edges::bytes_of("open 3 1; deliver 1 0; lose 0"), [begin, answers, end].concat()]
}
