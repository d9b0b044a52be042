//! Demand 3 of document 00, checked on the model's own play of a list, refused events included.
//! Its words are those of 01, "Lists of events".

use crate::again::{Announced, Met};
use crate::model::{ceil_log2, length, Event, Play, Rule};

/// How much was checked, so that an empty check shows.
#[derive(Default)]
pub struct Seen {
    pub lists: usize,
    pub accepted: usize,
    pub refused: usize,
    /// Answers that came twice.
    pub again: Met,
    pub deciders: usize,
    /// Lists in which two or more stations decided.
    pub shared: usize,
    pub supplied: usize,
    /// Stations that took just as many supplied steps as the bound allows.
    pub at_bound: usize,
}

/// Plays a list from a fresh opening and checks demand 3 all along.
pub fn check(n: u8, rule: u8, events: &[Event], seen: &mut Seen) -> Result<(), String> {
    let mut play = Play::open(n, rule).map_err(|number| format!("OPEN gives {number}"))?;
    let mut supplied = [0; 32];
    let mut announced = Announced::default();
    for &event in events {
        let number = one_event(&mut play, event, &mut supplied, seen)?;
        announced.event(&play, event, number, &mut seen.again);
    }
    let deciders = deciders(&play).len();
    seen.lists += 1;
    seen.deciders += deciders;
    seen.shared += usize::from(deciders > 1);
    seen.supplied += supplied.iter().sum::<usize>();
    seen.at_bound += supplied.iter().filter(|&&c| c == bound(&play)).count();
    Ok(())
}

/// One event, and its number.
fn one_event(play: &mut Play, event: Event, taken: &mut [usize; 32], seen: &mut Seen) -> Result<u8, String> {
    let supplied = matches!(event, Event::Step { s } if is_supplied(play, s));
    let due = matches!(event, Event::Step { s } if is_due(play, s));
    let number = play.event(event);
    let refused = number != 0;
    seen.refused += usize::from(refused);
    seen.accepted += usize::from(!refused);
    ensure(!(supplied && due && refused), || format!("a supplied {event:?} is refused with {number}"))?;
    if let (Event::Step { s }, false) = (event, refused) {
        taken[usize::from(s)] += usize::from(supplied);
        within_bound(play, s, taken[usize::from(s)])?;
        play.decision(s).map_or(Ok(()), |_| one_settlement(play))?;
    }
    Ok(number)
}

/// P holds its own claim and every claim any station holds, and the ballot it waits on is answered.
pub fn is_supplied(play: &Play, p: u8) -> bool {
    let waits_on = play.voted(p).into_iter().nth(play.took(p).len());
    play.held.contains(&(p, p))
        && play.held.iter().all(|&(t, _)| play.held.contains(&(t, p)))
        && waits_on.is_none_or(|(ballot, _)| play.answers.contains_key(&ballot))
}

/// P has claimed, is not lost and is undecided.
pub fn is_due(play: &Play, p: u8) -> bool {
    play.put_in.contains_key(&p) && !play.lost.contains(&p) && play.decision(p).is_none()
}

/// K: the length of the longest claim put in, 0 if there is none.
fn longest(play: &Play) -> usize {
    play.put_in.values().map(|&v| length(v)).max().unwrap_or(0)
}

/// The most supplied steps.
pub fn bound(play: &Play) -> usize {
    let n = usize::from(play.n);
    match play.rule {
        Rule::ByStation => 1 + usize::from(ceil_log2(play.n)) * (n + 2),
        Rule::ByClaim => 1 + longest(play) * (n + 4),
    }
}

fn within_bound(play: &Play, p: u8, taken: usize) -> Result<(), String> {
    let bound = bound(play);
    ensure(taken <= bound, || format!("station {p} took {taken} supplied steps, more than {bound}"))
}

fn deciders(play: &Play) -> Vec<u8> {
    let decided = |s: &u8| play.decision(*s).is_some();
    (0..play.n).filter(decided).collect()
}

/// Any two that decided, lost since or not, share the claim, the ballots and the answers.
fn one_settlement(play: &Play) -> Result<(), String> {
    let ballots = |s: u8| -> Vec<u8> { play.voted(s).into_iter().map(|(b, _)| b).collect() };
    let deciders = deciders(play);
    let first = deciders[0];
    for s in deciders {
        ensure(play.decision(s) == play.decision(first), || format!("stations {first} and {s} decided differently"))?;
        ensure(ballots(s) == ballots(first), || format!("stations {first} and {s} voted in other ballots"))?;
        ensure(play.took(s) == play.took(first), || format!("stations {first} and {s} took other answers"))?;
    }
    right_claim_and_count(play, first, ballots(first).len())
}

/// Some station put the claim in, and the number of ballots is the figure's.
fn right_claim_and_count(play: &Play, s: u8, ballots: usize) -> Result<(), String> {
    let put_in = |claim| play.put_in.values().any(|&v| Some(v) == claim);
    ensure(put_in(play.decision(s)), || format!("station {s} decided what nobody put in"))?;
    let right = match play.rule {
        Rule::ByStation => ballots == usize::from(ceil_log2(play.n)),
        Rule::ByClaim => ballots % 2 == 0 && (2..=2 * longest(play)).contains(&ballots),
    };
    ensure(right, || format!("station {s} decided after {ballots} ballots"))
}

fn ensure(holds: bool, why: impl Fn() -> String) -> Result<(), String> {
    if holds {
        Ok(())
    } else {
        Err(why())
    }
}
