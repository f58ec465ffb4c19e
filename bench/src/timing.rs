//! Best times, taken in turns.

use std::time::{Duration, Instant};

const ENOUGH: Duration = Duration::from_millis(400);

/// A call, and how often it is made in one turn: short ones more often than long ones.
pub type Call<'a> = (usize, &'a mut dyn FnMut());

/// Seconds that one call takes.
fn once(call: &mut dyn FnMut()) -> Duration {
    let start = Instant::now();
    call();
    start.elapsed()
}

/// The best of each call, kept over the rounds; in a round, calls are made in turns: at least three turns, and more while
/// there is time.
pub fn best(kept: &mut Vec<f64>, calls: &mut [Call]) {
    kept.resize(calls.len(), f64::INFINITY);
    let enough = ENOUGH * calls.len() as u32;
    let start = Instant::now();
    for turns in 0.. {
        if turns >= 3 && start.elapsed() > enough || turns >= 100 {
            break;
        }
        turn(kept, calls);
    }
}

/// One turn: each call so often, and its best time kept.
pub fn turn(kept: &mut [f64], calls: &mut [Call]) {
    for ((repeated, call), best) in calls.iter_mut().zip(kept) {
        for _ in 0..*repeated {
            *best = once(*call).as_secs_f64().min(*best);
        }
    }
}
