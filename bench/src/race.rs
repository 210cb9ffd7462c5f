//! Contestants timed side by side: in each round every one of them runs, so that what disturbs the machine disturbs all.

use std::hint::black_box;
use std::time::Instant;

const ROUNDS: usize = 15;

/// Each measurement lasts at least this long, in seconds, where one run does not.
const LEAST: f64 = 0.004;

/// What a contestant does once; the number keeps the work from being dropped.
pub type Run<'a> = Box<dyn FnMut() -> usize + 'a>;

/// Seconds for one run, in each round.
pub type Times = Vec<f64>;

fn time(run: &mut Run, runs: usize) -> f64 {
    let began = Instant::now();
    for _ in 0..runs {
        black_box(run());
    }
    began.elapsed().as_secs_f64() / runs as f64
}

/// The times of each contestant, in the order given.
pub fn race(contestants: &mut [Run]) -> Vec<Times> {
    let runs: Vec<usize> = contestants
        .iter_mut()
        .map(|run| (LEAST / time(run, 1).min(time(run, 1))).ceil() as usize)
        .collect();
    let mut times = vec![Vec::new(); contestants.len()];
    for _ in 0..ROUNDS {
        for ((run, runs), times) in contestants.iter_mut().zip(&runs).zip(&mut times) {
            times.push(time(run, *runs));
        }
    }
    times
}

/// The median and the ends of some values.
#[derive(Clone, Copy)]
pub struct Spread {
    pub middle: f64,
    pub least: f64,
    pub most: f64,
}

fn spread(values: impl Iterator<Item = f64>) -> Spread {
    let mut values: Vec<f64> = values.collect();
    values.sort_by(f64::total_cmp);
    Spread {
        middle: values[values.len() / 2],
        least: values[0],
        most: values[values.len() - 1],
    }
}

/// The ratios of two contestants, round by round.
pub fn ratio(a: &Times, b: &Times) -> Spread {
    spread(a.iter().zip(b).map(|(a, b)| a / b))
}

/// The middle of some times, and their ends.
pub fn middle(times: &Times) -> Spread {
    spread(times.iter().copied())
}
