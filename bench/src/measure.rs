//! Times two pieces of work side by side: round by round, the one and then the other, and the median of the rounds.

use std::time::Instant;

/// How many rounds are taken.
const ROUNDS: usize = 15;

/// How long one piece is run in a round, in seconds.
const LENGTH: f64 = 0.02;

/// Seconds for one run, over so many.
fn time(work: &mut dyn FnMut(), runs: u64) -> f64 {
    let begun = Instant::now();
    for _ in 0..runs {
        work();
    }
    begun.elapsed().as_secs_f64() / runs as f64
}

/// How many runs take about the length of a round.
fn runs_of(work: &mut dyn FnMut()) -> u64 {
    let mut runs = 1;
    loop {
        let each = time(work, runs);
        if each * runs as f64 >= LENGTH / 4.0 {
            return (LENGTH / each).ceil().max(1.0) as u64;
        }
        runs *= 4;
    }
}

fn median(mut numbers: Vec<f64>) -> f64 {
    numbers.sort_by(f64::total_cmp);
    numbers[numbers.len() / 2]
}

/// Seconds of both and the ratio of the other's time to the one's: medians over the rounds.
pub struct Compared {
    pub one: f64,
    pub other: f64,
    pub ratio: f64,
}

/// Measures both; `ratio` says how many times the one fits into the other.
pub fn compare(one: &mut dyn FnMut(), other: &mut dyn FnMut()) -> Compared {
    let (runs, other_runs) = (runs_of(one), runs_of(other));
    let rounds: Vec<(f64, f64)> = (0..ROUNDS).map(|_| (time(one, runs), time(other, other_runs))).collect();
    Compared {
        one: median(rounds.iter().map(|round| round.0).collect()),
        other: median(rounds.iter().map(|round| round.1).collect()),
        ratio: median(rounds.iter().map(|round| round.1 / round.0).collect()),
    }
}

/// Seconds for one run: the median over the rounds.
pub fn alone(work: &mut dyn FnMut()) -> f64 {
    let runs = runs_of(work);
    median((0..ROUNDS).map(|_| time(work, runs)).collect())
}
