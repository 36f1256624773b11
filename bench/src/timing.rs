//! Interleaved timing: each round times every candidate once, in an order that chance gives, so that none always finds the memory as the
//! same other one left it.

use reference::generate::Rng;
use std::time::{Duration, Instant};

/// The times of one candidate, in seconds, by round.
pub struct Times(Vec<f64>);

/// Runs each candidate once a round, after one round that is not counted and warms every buffer. A candidate answers how long the part of
/// it took that is timed.
pub fn interleaved(rounds: usize, candidates: &mut [&mut dyn FnMut() -> Duration]) -> Vec<Times> {
    let count = candidates.len();
    let mut times: Vec<Times> = (0..count).map(|_| Times(Vec::new())).collect();
    let mut rng = Rng::new(395);
    let mut order: Vec<usize> = (0..count).collect();
    for round in 0..=rounds {
        rng.shuffle(&mut order);
        for &which in &order {
            let taken = candidates[which]().as_secs_f64();
            if round > 0 {
                times[which].0.push(taken);
            }
        }
    }
    times
}

/// How long a call takes.
pub fn timed(call: impl FnOnce()) -> Duration {
    let begin = Instant::now();
    call();
    begin.elapsed()
}

impl Times {
    pub fn median(&self) -> f64 {
        Spread::of(&self.0).median
    }

    /// The fastest round: what other programs on the machine disturbed least.
    pub fn fastest(&self) -> f64 {
        self.0.iter().copied().fold(f64::INFINITY, f64::min)
    }

    /// The ratios of each round's times.
    pub fn over(&self, other: &Times) -> Spread {
        let ratios: Vec<f64> = self.0.iter().zip(&other.0).map(|(a, b)| a / b).collect();
        Spread::of(&ratios)
    }
}

/// The median, and the tenth and ninetieth of a hundred.
pub struct Spread {
    pub median: f64,
    pub low: f64,
    pub high: f64,
}

impl Spread {
    fn of(values: &[f64]) -> Spread {
        let mut sorted = values.to_vec();
        sorted.sort_by(f64::total_cmp);
        let at = |part: f64| sorted[(part * (sorted.len() - 1) as f64).round() as usize];
        Spread {
            median: at(0.5),
            low: at(0.1),
            high: at(0.9),
        }
    }
}
