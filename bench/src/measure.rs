//! Times of several sides, taken in turn in the same run.

use std::hint::black_box;
use std::time::{Duration, Instant};

/// A round calls a side as often as fills this time, so that short calls find their own caches.
const ROUND: Duration = Duration::from_millis(3);
const LEAST_ROUNDS: u32 = 3;
const MOST_ROUNDS: u32 = 15;
/// No further round after this time.
const ENOUGH: Duration = Duration::from_millis(270);

pub enum Side<'a> {
    /// A call that can be made again and again.
    Call(&'a mut dyn FnMut()),
    /// A call that uses its input up: it is made once a round, and answers its own time.
    Once(&'a mut dyn FnMut() -> Duration),
}

impl Side<'_> {
    /// Seconds of a call.
    fn time(&mut self, calls: u32) -> f64 {
        match self {
            Side::Call(call) => {
                let start = Instant::now();
                for _ in 0..calls {
                    call();
                }
                start.elapsed().as_secs_f64() / f64::from(calls)
            }
            Side::Once(call) => call().as_secs_f64(),
        }
    }

    /// How many calls fill a round. The side is called twice.
    fn calls(&mut self) -> u32 {
        self.time(1);
        let once = self.time(1).max(1e-9);
        (ROUND.as_secs_f64() / once).ceil().clamp(1.0, 1e6) as u32
    }
}

/// Releases an answer that the compiler must take for looked at.
pub fn release<T>(answer: T) {
    drop(black_box(answer));
}

/// Seconds of a call of each side: the best of the rounds.
pub fn best<const N: usize>(mut sides: [Side; N]) -> [f64; N] {
    let calls = sides.each_mut().map(Side::calls);
    let mut best = [f64::INFINITY; N];
    let start = Instant::now();
    for round in 0..MOST_ROUNDS {
        if round >= LEAST_ROUNDS && start.elapsed() > ENOUGH {
            break;
        }
        for ((side, &calls), best) in sides.iter_mut().zip(&calls).zip(&mut best) {
            *best = best.min(side.time(calls));
        }
    }
    best
}
