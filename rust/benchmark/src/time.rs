//! Times, as ratios: all contenders take turns in slices, so that the machine's other load falls on
//! each alike.

use std::time::{Duration, Instant};

/// A contender's slice of work, which says its time.
pub type Work<'a> = Box<dyn FnMut() -> Duration + 'a>;

/// The time that some work takes.
pub fn timed(work: impl FnOnce()) -> Duration {
    let began = Instant::now();
    work();
    began.elapsed()
}

/// A contender beside the first one.
pub struct Compared {
    /// Seconds of the best slice.
    pub best: f64,
    /// The median of the slices' ratios, first to this.
    pub median: f64,
    /// The ratio of the best slices.
    pub best_ratio: f64,
}

fn best(times: &[f64]) -> f64 {
    times.iter().copied().fold(f64::INFINITY, f64::min)
}

fn median(mut values: Vec<f64>) -> f64 {
    values.sort_by(f64::total_cmp);
    values[values.len() / 2]
}

/// Takes each contender's slices by turns and compares it with the first.
pub fn by_turns(slices: usize, contenders: &mut [Work<'_>]) -> Vec<Compared> {
    let mut times = vec![Vec::with_capacity(slices); contenders.len()];
    for _ in 0..slices.max(1) {
        for (work, times) in contenders.iter_mut().zip(&mut times) {
            times.push(work().as_secs_f64());
        }
    }
    let first = &times[0];
    let compared = times.iter().map(|times| Compared {
        best: best(times),
        median: median(first.iter().zip(times).map(|(p, o)| p / o).collect()),
        best_ratio: best(first) / best(times),
    });
    compared.collect()
}

/// The heading of [`rows`].
pub const HEADING: &str = "\
| Work | Contender | µs, best slice | proved / contender, median | proved / contender, best slices |
|---|---|---|---|---|";

/// Prints the rows of contenders whose slices are taken by turns.
pub fn rows(row: &str, names: &[&str], slices: usize, mut works: Vec<Work<'_>>) {
    for (name, told) in names.iter().zip(by_turns(slices, &mut works)) {
        println!(
            "| {row} | {name} | {:.2} | {:.3} | {:.3} |",
            told.best * 1e6,
            told.median,
            told.best_ratio
        );
    }
}
