//! What all benchmarks share: random numbers, and the time of a call.

use std::time::Instant;

/// A seeded generator.
pub struct Random(u64);

impl Random {
    pub fn new(seed: u64) -> Random {
        Random(seed)
    }

    /// Xorshift: a number below the bound.
    pub fn below(&mut self, bound: u64) -> u64 {
        self.0 ^= self.0 << 13;
        self.0 ^= self.0 >> 7;
        self.0 ^= self.0 << 17;
        self.0 % bound
    }
}

/// The weights of a split.
#[derive(Clone, Copy)]
pub enum Weights {
    Random,
    HalfEqual,
    Equal,
    Zero,
}

impl Weights {
    pub const ALL: [Weights; 4] = [
        Weights::Random,
        Weights::HalfEqual,
        Weights::Equal,
        Weights::Zero,
    ];

    pub fn name(self) -> &'static str {
        match self {
            Weights::Random => "random",
            Weights::HalfEqual => "half of them equal",
            Weights::Equal => "all equal",
            Weights::Zero => "all zero",
        }
    }

    /// The weight of a place; a random one is below the bound.
    pub fn draw(self, place: usize, bound: u64, random: &mut Random) -> u64 {
        match self {
            Weights::Random => random.below(bound),
            Weights::HalfEqual if place % 2 == 1 => random.below(bound),
            Weights::HalfEqual | Weights::Equal => 123_456_789,
            Weights::Zero => 0,
        }
    }
}

/// Nanoseconds a call, proved and plain: the best of many short rounds, in turn, so that other work on the machine counts for little.
/// A round makes one call for each case.
pub fn best_of<Case>(
    rounds: usize,
    cases: &[Case],
    mut proved: impl FnMut(&Case),
    mut plain: impl FnMut(&Case),
) -> (f64, f64) {
    let (mut best_proved, mut best_plain) = (f64::MAX, f64::MAX);
    for _ in 0..rounds {
        best_proved = best_proved.min(a_call(cases, &mut proved));
        best_plain = best_plain.min(a_call(cases, &mut plain));
    }
    (best_proved, best_plain)
}

/// The same of calls that change the state that they are made in: each round starts with all states as they were.
pub fn best_of_states<State: Clone>(
    rounds: usize,
    states: &[State],
    mut proved: impl FnMut(&mut State),
    mut plain: impl FnMut(&mut State),
) -> (f64, f64) {
    let (mut best_proved, mut best_plain) = (f64::MAX, f64::MAX);
    let mut changed = states.to_vec();
    for _ in 0..rounds {
        changed.clone_from_slice(states);
        best_proved = best_proved.min(a_change(&mut changed, &mut proved));
        changed.clone_from_slice(states);
        best_plain = best_plain.min(a_change(&mut changed, &mut plain));
    }
    (best_proved, best_plain)
}

fn a_change<State>(states: &mut [State], call: &mut impl FnMut(&mut State)) -> f64 {
    let start = Instant::now();
    for state in states.iter_mut() {
        call(state);
    }
    start.elapsed().as_nanos() as f64 / states.len() as f64
}

fn a_call<Case>(cases: &[Case], call: &mut impl FnMut(&Case)) -> f64 {
    let start = Instant::now();
    for case in cases {
        call(case);
    }
    start.elapsed().as_nanos() as f64 / cases.len() as f64
}
