//! Random readings of a given number of days.

use bench::{Random, Weights};

pub struct Case {
    pub reading: u64,
    pub weights: Vec<i64>,
}

/// A random reading, and weights of the kind.
pub fn case(days: usize, kind: Weights, random: &mut Random) -> Case {
    Case {
        reading: random.below(1_000_000_001),
        weights: (0..days)
            .map(|day| kind.draw(day, 2_000_000_001, random) as i64)
            .collect(),
    }
}
