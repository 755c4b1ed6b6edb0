//! Medians of short samples.

use std::time::Instant;

/// How often all is measured, and of how many samples a round takes its medians.
#[derive(Clone, Copy)]
pub struct Series {
    pub rounds: usize,
    pub samples: Samples,
    /// Of calls that take milliseconds.
    pub few: Samples,
}

impl Series {
    pub const FULL: Self = Self {
        rounds: 5,
        samples: Samples(301),
        few: Samples(5),
    };
    /// Shows that all runs; its times say little.
    pub const QUICK: Self = Self {
        rounds: 2,
        samples: Samples(3),
        few: Samples(1),
    };
}

/// How many samples a median is taken of.
#[derive(Clone, Copy)]
pub struct Samples(usize);

impl Samples {
    /// Of calls that take a good part of a second: the rounds are enough.
    pub const ONE: Self = Self(1);

    pub fn count(self) -> usize {
        self.0
    }

    /// Nanoseconds of one call of each side, measured in turns, so that all sides meet the same load. The calls of a
    /// sample should be few, so that most samples end before another process has its turn.
    pub fn medians<const N: usize>(
        self,
        calls: usize,
        mut sides: [&mut dyn FnMut(); N],
    ) -> [f64; N] {
        let mut times = [const { Vec::new() }; N];
        for _ in 0..self.0 {
            for (side, times) in sides.iter_mut().zip(&mut times) {
                times.push(time(calls, side));
            }
        }
        times.map(median)
    }
}

/// Nanoseconds of one call. The first one, which finds the other sides' data in the cache, is not timed.
fn time(calls: usize, call: &mut dyn FnMut()) -> f64 {
    call();
    let start = Instant::now();
    for _ in 0..calls {
        call();
    }
    start.elapsed().as_nanos() as f64 / calls as f64
}

fn median(mut samples: Vec<f64>) -> f64 {
    samples.sort_by(f64::total_cmp);
    samples[samples.len() / 2]
}

#[cfg(test)]
mod tests {
    use super::*;

    #[test]
    fn one_slow_sample_does_not_move_the_median() {
        assert_eq!(median(vec![3.0, 1_000.0, 1.0]), 3.0);
    }

    #[test]
    fn each_side_is_called_as_often() {
        let (mut first, mut second) = (0, 0);
        let sides: [&mut dyn FnMut(); 2] = [&mut || first += 1, &mut || second += 1];
        let times = Samples(5).medians(7, sides);
        assert!(times.iter().all(|time| *time >= 0.0));
        assert_eq!((first, second), (5 * 8, 5 * 8));
    }
}
