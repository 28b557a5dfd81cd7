//! The median time of many runs.

use std::time::{Duration, Instant};

/// How often most things are run.
pub const RUNS: usize = 101;

/// Something to be timed.
pub type Run<'a> = Box<dyn FnMut() + 'a>;

pub fn median(run: impl FnMut()) -> Duration {
    let [time] = medians(RUNS, [Box::new(run)]);
    time
}

/// The medians of several things that are run by turns, so that an uneven
/// machine hurts them alike.
pub fn medians<const N: usize>(rounds: usize, mut runs: [Run; N]) -> [Duration; N] {
    let mut times = [const { Vec::new() }; N];
    for _ in 0..rounds {
        for (run, times) in runs.iter_mut().zip(&mut times) {
            let start = Instant::now();
            run();
            times.push(start.elapsed());
        }
    }
    times.map(|mut times| {
        times.sort();
        times[rounds / 2]
    })
}

pub fn milliseconds(time: Duration) -> f64 {
    time.as_secs_f64() * 1e3
}

/// Nanoseconds for each of so many things.
pub fn nanoseconds_each(time: Duration, count: u64) -> f64 {
    time.as_secs_f64() * 1e9 / count as f64
}
