//! Cases of `prorations`.

use crate::bytes::Writer;
use crate::limits::{MAX_AMOUNT, MAX_ENERGY, MAX_PERIOD};
use crate::prorations::Case;
use crate::rng::Rng;

const SEED: u64 = 1;
const MAX_WEIGHT: i128 = MAX_AMOUNT;

/// The program's standard input. Its last case has a weight out of range, which ends the run.
pub fn stdin() -> Vec<u8> {
    let mut out = Writer::new();
    for case in cases() {
        case.write(&mut out);
    }
    let past_the_limit = Case { amount: 1, parties: vec![(1, 1), (MAX_WEIGHT as u32 + 1, 2)] };
    past_the_limit.write(&mut out);
    out.bytes
}

fn cases() -> Vec<Case> {
    let mut rng = Rng::new(SEED);
    let mut cases = examples();
    cases.extend(extremes());
    for _ in 0..2_400 {
        let count = small_count(&mut rng);
        cases.push(random_case(count, &mut rng));
    }
    for round in 0..240 {
        let count = [63, 64, 65, 66][round % 4];
        cases.push(random_case(count, &mut rng));
    }
    for _ in 0..50 {
        cases.push(random_case(MAX_PERIOD, &mut rng));
    }
    for _ in 0..300 {
        cases.push(exact_case(&mut rng));
    }
    cases
}

fn case(amount: i64, parties: &[(u32, u32)]) -> Case {
    Case { amount, parties: parties.to_vec() }
}

/// The splits of document 01's examples P1, P2, P3, P8 and P9.
fn examples() -> Vec<Case> {
    vec![
        case(194, &[(200, 7), (153, 9), (50, 12)]),
        case(96, &[(0, 1), (0, 2), (200, 3), (0, 4), (0, 5)]),
        case(-10, &[(1, 1), (1, 2), (1, 3)]),
        case(1, &[(60, 1), (39, 2)]),
        case(101, &[(599, 7), (227, 9), (74, 12)]),
        case(201, &[(0, 5), (0, 6)]),
    ]
}

/// The greatest amounts and weights, alone and together.
fn extremes() -> Vec<Case> {
    let greatest = MAX_WEIGHT as u32;
    let mut cases = Vec::new();
    for amount in [MAX_ENERGY as i64, 999_999_999, 1, 0, -1, -999_999_999, -MAX_ENERGY as i64] {
        for count in [1, 2, 5, 64, MAX_PERIOD] {
            let all = |weight: u32| -> Vec<(u32, u32)> {
                (0..count).map(|i| (weight, (count - i) as u32)).collect()
            };
            cases.push(case(amount, &all(greatest)));
            cases.push(case(amount, &all(0)));
            if count < MAX_PERIOD {
                let mut one_less = all(greatest);
                one_less[count / 2].0 -= 1;
                cases.push(case(amount, &one_less));
                let mut one_party = all(0);
                one_party[count / 2].0 = greatest;
                cases.push(case(amount, &one_party));
            }
        }
        cases.push(case(amount, &[(greatest, u32::MAX), (greatest, 0), (1, 65_535)]));
    }
    cases
}

fn small_count(rng: &mut Rng) -> usize {
    match rng.below(10) {
        0 => 1,
        1 | 2 => 2,
        3 | 4 => 5,
        5..=8 => 1 + rng.below(12),
        _ => 1 + rng.below(30),
    }
}

fn random_case(count: usize, rng: &mut Rng) -> Case {
    let weights = weights(count, rng);
    let amount = amount(&weights, rng);
    let keys = keys(count, rng);
    assemble(amount, &weights, &keys)
}

fn assemble(amount: i128, weights: &[i128], keys: &[u32]) -> Case {
    let parties = weights.iter().zip(keys).map(|(&weight, &key)| (weight as u32, key));
    Case { amount: amount as i64, parties: parties.collect() }
}

fn weights(count: usize, rng: &mut Rng) -> Vec<i128> {
    let style = rng.below(9);
    let common = rng.between(1, 1_000);
    let (few, large) = (rng.between(1, 4), rng.between(1, MAX_WEIGHT));
    let one = |rng: &mut Rng| match style {
        0 => common,
        1 => 0,
        2 => rng.between(0, few),
        3 => rng.between(0, MAX_WEIGHT),
        4 => rng.between(MAX_WEIGHT - 3, MAX_WEIGHT),
        5 => common * rng.between(0, 3),
        6 => rng.pick(&[0, 1, large]),
        7 => rng.pick(&[0, 0, 0, common % 7 + 1, large]),
        _ => rng.between(0, 1_000_000),
    };
    (0..count).map(|_| one(rng)).collect()
}

/// Amounts of every size and sign; halves and thirds of the weights' sum make parties of
/// different weights tie.
fn amount(weights: &[i128], rng: &mut Rng) -> i128 {
    let total: i128 = weights.iter().sum();
    let count = weights.len() as i128;
    let size = match rng.below(10) {
        0 => 0,
        1 => 1,
        2 => rng.between(0, count),
        3 => rng.between(0, 1_000),
        4 => rng.between(0, MAX_ENERGY),
        5 => rng.between(MAX_ENERGY - 9, MAX_ENERGY),
        6 => total / 2,
        7 => total / 3,
        8 => total * rng.between(1, 3) + rng.between(-1, 1),
        _ => total / 2 + total,
    };
    let size = size.clamp(0, MAX_ENERGY);
    if rng.one_in(3) {
        -size
    } else {
        size
    }
}

/// Distinct keys: rising, falling, shuffled user numbers, or any numbers below 2^32.
fn keys(count: usize, rng: &mut Rng) -> Vec<u32> {
    let style = rng.below(6);
    let highest = if style == 5 { u32::MAX as i128 } else { 65_535 };
    let mut keys: Vec<u32> = match style {
        0 | 1 => (1..=count as u32).collect(),
        _ => distinct(count, highest, rng),
    };
    match rng.below(4) {
        0 => keys.sort(),
        1 => keys.sort_by(|a, b| b.cmp(a)),
        _ => rng.shuffle(&mut keys),
    }
    keys
}

fn distinct(count: usize, highest: i128, rng: &mut Rng) -> Vec<u32> {
    let mut keys = std::collections::BTreeSet::new();
    while keys.len() < count {
        keys.insert(rng.between(1, highest) as u32);
    }
    keys.into_iter().collect()
}

/// Amounts that the weights' sum W divides, and those one beside them; W divides nothing else
/// here, so that floors and remainders are all but zero or all at the edge.
fn exact_case(rng: &mut Rng) -> Case {
    let count = 1 + rng.below(8);
    let weights: Vec<i128> = (0..count).map(|_| rng.between(0, 50)).collect();
    let total = weights.iter().sum::<i128>().max(1);
    let amount = total * rng.between(-1_000, 1_000) + rng.pick(&[0, 0, 0, 1, -1]);
    let keys = keys(count, rng);
    assemble(amount, &weights, &keys)
}
