//! Random splits of a given number of parties.

use bench::{Random, Weights};

pub struct Case {
    pub amount: i64,
    pub weights: Vec<u64>,
    pub keys: Vec<u64>,
}

/// A random amount of either sign, weights of the kind, and the keys 1, 2, .. in a random order.
pub fn case(parties: usize, kind: Weights, random: &mut Random) -> Case {
    let mut keys: Vec<u64> = (1..=parties as u64).collect();
    for i in (1..parties).rev() {
        let j = random.below(i as u64 + 1) as usize;
        keys.swap(i, j);
    }
    Case {
        amount: random.below(2_000_000_001) as i64 - 1_000_000_000,
        weights: (0..parties)
            .map(|place| kind.draw(place, 1_000_000_000, random))
            .collect(),
        keys,
    }
}
