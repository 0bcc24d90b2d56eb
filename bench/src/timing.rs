//! Several things timed by turns, so that what disturbs the machine disturbs all of them.

use std::time::{Duration, Instant};

/// One thing that is timed: how many calls it makes, and how long these took.
pub struct Timed<'a> {
    pub calls: usize,
    pub run: Box<dyn FnMut() -> Duration + 'a>,
}

impl<'a> Timed<'a> {
    /// All of what is done is timed.
    pub fn whole(calls: usize, mut work: impl FnMut() + 'a) -> Self {
        Timed::part(calls, move || {
            let began = Instant::now();
            work();
            began.elapsed()
        })
    }

    /// What is done says itself which part of it counts.
    pub fn part(calls: usize, run: impl FnMut() -> Duration + 'a) -> Self {
        Timed {
            calls,
            run: Box::new(run),
        }
    }
}

/// The median time of each in ns for each call. Each round runs all, and begins with another; a
/// first round only warms up.
pub fn medians(rounds: usize, all: &mut [Timed]) -> Vec<f64> {
    let mut times = vec![Vec::new(); all.len()];
    for round in 0..=rounds {
        for turn in 0..all.len() {
            let one = (round + turn) % all.len();
            let took = (all[one].run)().as_nanos() as f64 / all[one].calls as f64;
            if round > 0 {
                times[one].push(took);
            }
        }
    }
    times.into_iter().map(median).collect()
}

fn median(mut times: Vec<f64>) -> f64 {
    times.sort_by(f64::total_cmp);
    let middle = times.len() / 2;
    match times.len() % 2 {
        0 => (times[middle - 1] + times[middle]) / 2.0,
        _ => times[middle],
    }
}
