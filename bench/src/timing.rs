//! Times three programs side by side: they take turns, each with a round of calls or several. Other work on the machine
//! slows a round down even where its own time does not count, so the fastest rounds tell most.

use crate::clock;
use std::time::Instant;

/// How long one round of one program should take: short, so that many rounds pass undisturbed.
const ROUND_NS: f64 = 500_000.0;
/// So many turns at least, however long a call takes.
const LEAST_TURNS: usize = 10;

/// Nanoseconds per call of each program: the median of the fastest tenth of its rounds. Each has about so many, but for
/// a program of which one call is longer than a round: it has one round in each turn, and there are fewer turns.
pub fn side_by_side(rounds: usize, mut first: impl FnMut(), mut second: impl FnMut(), mut third: impl FnMut()) -> [f64; 3] {
    let calls = [calls(&mut first), calls(&mut second), calls(&mut third)];
    let mut times = [const { Vec::new() }; 3];
    let start = Instant::now();
    times[0].push(round(calls[0], &mut first));
    times[1].push(round(calls[1], &mut second));
    times[2].push(round(calls[2], &mut third));
    // As many turns as take twice the time that all rounds should take, judged by the first turn.
    let turns = 6.0 * ROUND_NS * rounds as f64 / start.elapsed().as_nanos() as f64;
    let turns = (turns as usize).clamp(LEAST_TURNS.min(rounds), rounds);
    let rounds = calls.map(|calls| if calls == 1 { 1 } else { rounds.div_ceil(turns) });
    for _ in 1..turns {
        times[0].extend((0..rounds[0]).map(|_| round(calls[0], &mut first)));
        times[1].extend((0..rounds[1]).map(|_| round(calls[1], &mut second)));
        times[2].extend((0..rounds[2]).map(|_| round(calls[2], &mut third)));
    }
    times.map(|mut times| {
        times.sort_by(f64::total_cmp);
        times[times.len().div_ceil(10) / 2]
    })
}

/// Nanoseconds per call over one round.
#[inline(never)]
fn round(calls: u64, program: &mut impl FnMut()) -> f64 {
    let start = clock::now();
    for _ in 0..calls {
        program();
    }
    (clock::now() - start) / calls as f64
}

/// How many calls make a round.
fn calls(program: &mut impl FnMut()) -> u64 {
    let mut calls = 1;
    loop {
        let spent = round(calls, program) * calls as f64;
        if spent > ROUND_NS / 8.0 {
            return ((calls as f64 * ROUND_NS / spent) as u64).max(1);
        }
        calls *= 2;
    }
}
