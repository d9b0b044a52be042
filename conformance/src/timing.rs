//! Times of calls that are made in turns.

use std::time::{Duration, Instant};

/// Turns for each call; the fastest counts, since other work on the machine only slows a turn.
pub const TURNS: usize = 60;
const TURN: Duration = Duration::from_millis(5);

/// Seconds for one call of each, the fastest of their turns.
pub fn in_turns(calls: [&mut dyn FnMut(); 2]) -> [f64; 2] {
    let [first, second] = calls;
    let mut fastest = [f64::INFINITY; 2];
    for _ in 0..TURNS {
        fastest = [fastest[0].min(one_turn(first)), fastest[1].min(one_turn(second))];
    }
    fastest
}

/// Seconds for one call, over a turn.
fn one_turn(call: &mut dyn FnMut()) -> f64 {
    let start = Instant::now();
    let mut calls = 0;
    while start.elapsed() < TURN {
        call();
        calls += 1;
    }
    start.elapsed().as_secs_f64() / f64::from(calls)
}
