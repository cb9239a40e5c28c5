//! Readings spread over the days of their period.

use super::HUGE;
use crate::estimate::Operation;
use crate::limits::{MAX_AMOUNT, MAX_ENERGY, MAX_PERIOD};
use crate::rng::Rng;

const SEED: u64 = 6;

pub fn all(out: &mut Vec<Operation>) {
    ranges(out);
    order_of_refusals(out);
    whole_years(out);
    let mut rng = Rng::new(SEED);
    for _ in 0..200 {
        out.push(random(&mut rng));
    }
}

fn spread(reading: i128, weights: &[i128], buffer: usize) -> Operation {
    Operation::Spread { reading, weights: weights.to_vec(), buffer }
}

fn ranges(out: &mut Vec<Operation>) {
    for reading in [0, 1, 2, 100, MAX_ENERGY, MAX_ENERGY + 1, 1 << 63, HUGE] {
        out.push(spread(reading, &[1, 1, 1], 4));
        out.push(spread(reading, &[0, 0, 0], 3));
        out.push(spread(reading, &[MAX_AMOUNT, MAX_AMOUNT - 1, 1], 5));
        out.push(spread(reading, &[0], 1));
    }
    let extremes = [i64::MIN as i128, -MAX_AMOUNT - 1, -MAX_AMOUNT, -1, 0, MAX_AMOUNT];
    for weight in extremes.into_iter().chain([MAX_AMOUNT + 1, i64::MAX as i128]) {
        out.push(spread(7, &[weight], 2));
        out.push(spread(7, &[3, weight, 3], 3));
        out.push(spread(0, &[3, 3, weight], 3));
    }
    for buffer in 0..=5 {
        out.push(spread(10, &[1, 2, 3, 1], buffer));
    }
    out.push(spread(10, &[], 0));
    out.push(spread(10, &[], 3));
}

/// 2 before 11 before 14.
fn order_of_refusals(out: &mut Vec<Operation>) {
    out.push(spread(MAX_ENERGY + 1, &[-1, 1], 1));
    out.push(spread(10, &[-1, MAX_AMOUNT + 1], 1));
    out.push(spread(10, &[-1, 1], 1));
    out.push(spread(10, &[1, -1], 2));
    out.push(spread(10, &[1, 1], 1));
    out.push(spread(10, &[], 0));
}

fn whole_years(out: &mut Vec<Operation>) {
    let rising: Vec<i128> = (0..MAX_PERIOD as i128).map(|i| MAX_AMOUNT - i * i % 11).collect();
    out.push(spread(MAX_ENERGY, &rising, MAX_PERIOD + 2));
    out.push(spread(365, &vec![0; MAX_PERIOD], MAX_PERIOD));
    let seasons: Vec<i128> =
        (0..MAX_PERIOD as i128 - 1).map(|i| (i - 183) * (i - 183) % 977).collect();
    out.push(spread(123_456_789, &seasons, MAX_PERIOD));
    out.push(spread(1_000, &vec![1; MAX_PERIOD + 1], MAX_PERIOD + 1));
}

fn random(rng: &mut Rng) -> Operation {
    let days = 1 + rng.below(9);
    let greatest = rng.pick(&[1, 3, 1_000, MAX_AMOUNT]);
    let weights: Vec<i128> = (0..days).map(|_| rng.between(0, greatest)).collect();
    let reading = match rng.below(4) {
        0 => rng.between(0, days as i128 * 2),
        1 => (weights.iter().sum::<i128>() / 2).min(MAX_ENERGY),
        2 => rng.between(0, MAX_ENERGY),
        _ => rng.between(0, 1_000),
    };
    spread(reading, &weights, days + rng.below(3))
}
