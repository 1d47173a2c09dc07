//! Batches, one side after the other, and what they took.

use std::fmt;

/// Nanoseconds a run: the median of the batches and the fastest one.
pub struct Times {
    pub median: f64,
    pub best: f64,
}

impl Times {
    /// What the batches took.
    pub fn of(mut took: Vec<f64>) -> Self {
        took.sort_by(f64::total_cmp);
        Self {
            median: took[took.len() / 2],
            best: took[0],
        }
    }
}

impl fmt::Display for Times {
    fn fmt(&self, f: &mut fmt::Formatter) -> fmt::Result {
        write!(f, "{:.0} ({:.0})", self.median, self.best)
    }
}

/// Runs the batches of all sides in turn; each gives its nanoseconds a run.
pub fn interleaved<const N: usize>(
    batches: usize,
    mut sides: [&mut dyn FnMut() -> f64; N],
) -> [Times; N] {
    let mut took = [const { vec![] }; N];
    for _ in 0..batches {
        for (side, took) in sides.iter_mut().zip(&mut took) {
            took.push(side());
        }
    }
    took.map(Times::of)
}
