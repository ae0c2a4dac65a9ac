//! Time for one round of a call, the sides in turn.

use std::time::{Duration, Instant};

/// Turns, of which the best counts, as other work on the machine only adds; each lasts at least so
/// long.
const TURNS: usize = 15;
const TURN: Duration = Duration::from_millis(60);

/// Seconds for a round of each side: the best of several turns, the sides one after the other.
pub fn seconds<const N: usize>(mut sides: [&mut dyn FnMut(); N]) -> [f64; N] {
    let rounds = sides.each_mut().map(|side| rounds(side));
    let mut best = [f64::INFINITY; N];
    for _ in 0..TURNS {
        for ((side, best), rounds) in sides.iter_mut().zip(&mut best).zip(rounds) {
            *best = best.min(turn(side, rounds));
        }
    }
    best
}

/// How many rounds fill a turn; also warms up.
fn rounds(call: &mut dyn FnMut()) -> u32 {
    let once = turn(call, 1).min(turn(call, 1));
    (TURN.as_secs_f64() / once.max(1e-9)).ceil().clamp(1.0, 1e7) as u32
}

fn turn(call: &mut dyn FnMut(), rounds: u32) -> f64 {
    let began = Instant::now();
    for _ in 0..rounds {
        call();
    }
    began.elapsed().as_secs_f64() / f64::from(rounds)
}
