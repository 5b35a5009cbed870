//! Times of rivals, taken by turns so that a busy machine slows all alike.

use std::time::{Duration, Instant};

const MOST_ROUNDS: usize = 200;
const FEWEST_ROUNDS: usize = 3;
/// Calls of one round take about this long together: short, so that some rounds are not interrupted.
const ROUND: Duration = Duration::from_millis(2);
/// After this long no further round is begun.
const ENOUGH: Duration = Duration::from_secs(2);
/// A call that takes this long is not repeated.
const LONG: Duration = Duration::from_secs(1);

pub fn timed<T>(act: impl FnOnce() -> T) -> (T, Duration) {
    let start = Instant::now();
    let result = act();
    (result, start.elapsed())
}

/// The least time of one call of each, over several rounds.
pub fn race<const RIVALS: usize>(mut rivals: [&mut dyn FnMut(); RIVALS]) -> [Duration; RIVALS] {
    let once = rivals.each_mut().map(|act| timed(act).1);
    if once.iter().any(|time| *time > LONG) {
        return once;
    }
    let mut least = [Duration::MAX; RIVALS];
    let start = Instant::now();
    for round in 0..MOST_ROUNDS {
        if round >= FEWEST_ROUNDS && start.elapsed() > ENOUGH {
            break;
        }
        for ((act, once), least) in rivals.iter_mut().zip(once).zip(&mut least) {
            *least = (*least).min(one_of_many(act, once));
        }
    }
    least
}

/// The mean of a round of calls.
fn one_of_many(act: &mut dyn FnMut(), once: Duration) -> Duration {
    let calls = (ROUND.as_nanos() / once.as_nanos().max(50)).clamp(1, 200_000) as u32;
    timed(|| (0..calls).for_each(|_| act())).1 / calls
}

/// How many times as long.
pub fn quotient(time: Duration, other: Duration) -> f64 {
    time.as_secs_f64() / other.as_secs_f64()
}

/// A time with three digits that count.
pub fn show(time: Duration) -> String {
    let seconds = time.as_secs_f64();
    let (number, unit) = match seconds {
        _ if seconds < 1e-3 => (seconds * 1e6, "µs"),
        _ if seconds < 1.0 => (seconds * 1e3, "ms"),
        _ => (seconds, "s"),
    };
    let digits = if number < 10.0 { 2 } else { usize::from(number < 100.0) };
    format!("{number:.digits$} {unit}")
}
