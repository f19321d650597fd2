//! What the benchmarks share: a seeded generator and a stopwatch.

#![allow(dead_code)]

use std::hint::black_box;
use std::time::Instant;

/// The generator SplitMix64.
pub struct Rng(u64);

impl Rng {
    pub fn new(seed: u64) -> Rng {
        Rng(seed)
    }

    pub fn below(&mut self, end: u64) -> u64 {
        self.0 = self.0.wrapping_add(0x9e37_79b9_7f4a_7c15);
        let mut z = self.0;
        z = (z ^ (z >> 30)).wrapping_mul(0xbf58_476d_1ce4_e5b9);
        z = (z ^ (z >> 27)).wrapping_mul(0x94d0_49bb_1331_11eb);
        (z ^ (z >> 31)) % end
    }
}

/// The times of one shape, in milliseconds, a number for each round.
#[derive(Default)]
pub struct Times(Vec<f64>);

impl Times {
    pub fn time<R>(&mut self, run: impl FnOnce() -> R) {
        let start = Instant::now();
        black_box(run());
        self.0.push(start.elapsed().as_secs_f64() * 1e3);
    }

    fn sorted(&self) -> Vec<f64> {
        let mut times = self.0.clone();
        times.sort_by(f64::total_cmp);
        times
    }

    pub fn median(&self) -> f64 {
        self.sorted()[self.0.len() / 2]
    }

    pub fn minimum(&self) -> f64 {
        self.sorted()[0]
    }

    /// Round by round, these times less the others.
    pub fn less(&self, others: &Times) -> Times {
        Times(self.0.iter().zip(&others.0).map(|(time, other)| time - other).collect())
    }

    /// The ratio of the medians.
    pub fn over(&self, others: &Times) -> f64 {
        self.median() / others.median()
    }

    /// The standard error of that ratio: how it scatters where as many rounds are drawn out of all,
    /// each of them as often as it comes.
    pub fn error_over(&self, others: &Times) -> f64 {
        const DRAWS: usize = 200;
        let rounds = self.0.len();
        let mut rng = Rng::new(1);
        let mut ratio = || {
            let drawn: Vec<usize> =
                (0..rounds).map(|_| rng.below(rounds as u64) as usize).collect();
            let pick = |times: &Times| Times(drawn.iter().map(|&round| times.0[round]).collect());
            pick(self).over(&pick(others))
        };
        let ratios: Vec<f64> = (0..DRAWS).map(|_| ratio()).collect();
        let mean = ratios.iter().sum::<f64>() / DRAWS as f64;
        let squares: f64 = ratios.iter().map(|ratio| (ratio - mean).powi(2)).sum();
        (squares / DRAWS as f64).sqrt()
    }
}
