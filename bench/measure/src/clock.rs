//! Times of several sides in one run, by turns: a slow spell of the machine meets all of them.

use std::time::Instant;

/// How often each side has its turn; its best turn counts.
pub const TURNS: usize = 201;

/// A turn repeats a short call until it takes about this many seconds.
const TURN: f64 = 0.001;

/// The best time of one call of each side, in nanoseconds.
pub fn by_turns<const SIDES: usize>(mut sides: [&mut dyn FnMut(); SIDES]) -> [f64; SIDES] {
    let mut calls = [1; SIDES];
    for (side, calls) in sides.iter_mut().zip(&mut calls) {
        *calls = (TURN / seconds(side, 1).max(1e-8)).ceil() as u32;
    }
    let mut best = [f64::MAX; SIDES];
    for _ in 0..TURNS {
        for number in 0..SIDES {
            let time = seconds(sides[number], calls[number]) / f64::from(calls[number]);
            best[number] = best[number].min(time * 1e9);
        }
    }
    best
}

fn seconds(side: &mut dyn FnMut(), calls: u32) -> f64 {
    let start = Instant::now();
    for _ in 0..calls {
        side();
    }
    start.elapsed().as_secs_f64()
}
