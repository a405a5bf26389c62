//! The middle of some figures, and how far they move.

use std::fmt;

/// A quarter of the figures lies below the lower quartile, half of them below the median, three quarters below the upper quartile.
pub struct Quartiles {
    lower: f64,
    pub median: f64,
    upper: f64,
}

impl Quartiles {
    pub fn of(figures: impl Iterator<Item = f64>) -> Self {
        let mut sorted: Vec<f64> = figures.collect();
        sorted.sort_unstable_by(f64::total_cmp);
        let after = |quarters| sorted[sorted.len() * quarters / 4];
        Self {
            lower: after(1),
            median: after(2),
            upper: after(3),
        }
    }
}

impl fmt::Display for Quartiles {
    fn fmt(&self, f: &mut fmt::Formatter) -> fmt::Result {
        let Self {
            lower,
            median,
            upper,
        } = self;
        write!(f, "{median:.2} ({lower:.2} to {upper:.2})")
    }
}
