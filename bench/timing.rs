//! How long something takes.

use std::time::{Duration, Instant};

/// A round repeats the work so often that it takes this long.
const ROUND: Duration = Duration::from_millis(10);
const ROUNDS: usize = 7;
/// No further round begins once the rounds took this long, but two are made.
const ENOUGH: Duration = Duration::from_secs(2);

/// The nanoseconds of one repetition in the best of several rounds, without what `repeat` does beside.
pub fn nanoseconds(repeat: impl Fn(usize)) -> f64 {
    let mut times = 1;
    let mut first = elapsed(&repeat, times);
    while first < ROUND {
        times *= 2;
        first = elapsed(&repeat, times);
    }
    let beside = best(&repeat, 0, elapsed(&repeat, 0));
    let all = best(&repeat, times, first);
    (all.as_nanos() as f64 - beside.as_nanos() as f64) / times as f64
}

/// The shortest of several rounds, the first of which was made.
fn best(repeat: &impl Fn(usize), times: usize, first: Duration) -> Duration {
    let mut best = first;
    let mut spent = first;
    for round in 1..ROUNDS {
        if round > 1 && spent > ENOUGH {
            break;
        }
        let time = elapsed(repeat, times);
        best = best.min(time);
        spent += time;
    }
    best
}

fn elapsed(repeat: &impl Fn(usize), times: usize) -> Duration {
    let start = Instant::now();
    repeat(times);
    start.elapsed()
}

/// A number with commas between its thousands.
pub fn grouped(number: usize) -> String {
    if number < 1000 {
        return number.to_string();
    }
    format!("{},{:03}", grouped(number / 1000), number % 1000)
}
