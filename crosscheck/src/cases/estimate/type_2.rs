//! Type 2 groups and their profile.

use super::{HUGE, HUGE_32};
use crate::estimate::Operation;
use crate::rng::Rng;
use crate::supply::{Profile, Type2, MAX_CONSUMERS, MAX_PROFILE};
use crate::temperature::MAX_DEGREE_DAYS;

const SEED: u64 = 8;

pub fn all(out: &mut Vec<Operation>) {
    let mut rng = Rng::new(SEED);
    type_2(out, &mut rng);
    profiles(out, &mut rng);
}

fn type_2(out: &mut Vec<Operation>, rng: &mut Rng) {
    let mut add = |group: Type2| out.push(Operation::Type2(group));
    let base =
        |winters: Vec<Vec<i128>>| Type2 { consumers: 1_000, profile: 25_000, g: 400, winters };
    // The rounded answer is 1,000,000,000, the exact fraction above it; then one above.
    for profile in
        [996_884_735_202, 996_884_735_203, 996_884_735_701, 996_884_735_702, 996_884_735_703]
    {
        add(Type2 { consumers: 1, profile, g: 161, ..base(vec![vec![160; 30]]) });
    }
    // Consumers times profile at and past 10^12; either out of range.
    let products = [
        (0, 0),
        (0, MAX_PROFILE),
        (MAX_CONSUMERS, 0),
        (1, MAX_PROFILE),
        (2, MAX_PROFILE / 2),
        (2, MAX_PROFILE / 2 + 1),
        (999_999, 1_000_000),
        (999_999, 1_000_001),
        (999_999, 1_000_002),
        (1_000_000, 1_000_000),
        (1_000_000, 1_000_001),
        (1_000_001, 1_000_000),
        (MAX_CONSUMERS, 100_000),
        (MAX_CONSUMERS, 100_001),
        (MAX_CONSUMERS, MAX_PROFILE),
        (MAX_CONSUMERS + 1, 0),
        (MAX_CONSUMERS + 1, MAX_PROFILE),
        (HUGE_32, 1),
        (0, MAX_PROFILE + 1),
        (1, MAX_PROFILE + 1),
        (MAX_CONSUMERS, HUGE),
    ];
    for (consumers, profile) in products {
        add(Type2 { consumers, profile, g: 0, ..base(vec![vec![0; 28]]) });
    }
    for g in [0, MAX_DEGREE_DAYS, MAX_DEGREE_DAYS + 1, HUGE_32] {
        add(Type2 { g, ..base(vec![vec![MAX_DEGREE_DAYS; 31]]) });
        let mut days = vec![0; 28];
        days[27] = g;
        add(base(vec![vec![7; 29], days]));
    }
    for lengths in
        [vec![], vec![27], vec![28], vec![31], vec![32], vec![0], vec![28, 0], vec![0, 28]]
    {
        add(base(lengths.iter().map(|&n| vec![3; n]).collect()));
    }
    for lengths in
        [vec![28, 29], vec![29, 28], vec![28, 32], vec![27, 28], vec![28; 3], vec![28; 8]]
    {
        add(base(lengths.iter().map(|&n| vec![3; n]).collect()));
    }
    // The average of the month means is not the mean of all days.
    for (one, other) in [(28, 31), (28, 29), (31, 28), (30, 30)] {
        let far_apart = vec![vec![0; one], vec![MAX_DEGREE_DAYS; other]];
        add(Type2 { consumers: 1_000_000, profile: 500_000, ..base(far_apart) });
    }
    // One winter is the same as that winter twice.
    let winter: Vec<i128> = (0..29).map(|_| rng.between(0, 900)).collect();
    add(base(vec![winter.clone()]));
    add(base(vec![winter.clone(), winter]));
    for _ in 0..25 {
        let count = 1 + rng.below(2);
        let winters = (0..count)
            .map(|_| {
                let days = 28 + rng.below(4);
                (0..days).map(|_| rng.between(0, MAX_DEGREE_DAYS)).collect()
            })
            .collect();
        let consumers = rng.between(0, MAX_CONSUMERS);
        let profile = rng.between(0, 2 * MAX_PROFILE / (consumers + 1)).min(MAX_PROFILE);
        add(Type2 { consumers, profile, g: rng.between(0, MAX_DEGREE_DAYS), winters });
    }
}

fn profiles(out: &mut Vec<Operation>, rng: &mut Rng) {
    let mut add = |f1, f2, nc1, nc2, n1, n2| {
        out.push(Operation::Profile(Profile {
            month_consumption: [f1, f2],
            consumers: [nc1, nc2],
            days: [n1, n2],
        }))
    };
    // The greatest, which Type 2 does not take, and half fractions.
    add(MAX_PROFILE, MAX_PROFILE, 1, 0, 28, 28);
    add(MAX_PROFILE, MAX_PROFILE, 0, 1, 28, 28);
    add(7, 0, 125, 0, 28, 28);
    add(7, 7, 250, 250, 28, 28);
    add(0, 0, 1, 1, 28, 31);
    for f in [0, 1, MAX_PROFILE, MAX_PROFILE + 1, HUGE] {
        add(f, 5, 10, 10, 30, 31);
        add(5, f, 10, 10, 30, 31);
    }
    for nc in [0, 1, MAX_CONSUMERS, MAX_CONSUMERS + 1, HUGE_32] {
        add(5, 5, nc, 0, 30, 31);
        add(MAX_PROFILE, 5, 0, nc, 30, 31);
        add(MAX_PROFILE + 1, 5, 0, 0, 30, nc);
    }
    for n in [0, 27, 28, 31, 32, HUGE_32] {
        add(1_000_000, 5, 3, 4, n, 30);
        add(1_000_000, 5, 3, 4, 30, n);
        add(1_000_000, 5, 0, 0, 30, n);
    }
    for _ in 0..60 {
        let greatest = rng.pick(&[10, 100_000, MAX_PROFILE]);
        let most = rng.pick(&[3, 1_000, MAX_CONSUMERS]);
        let mut f = || rng.between(0, greatest);
        let (f1, f2) = (f(), f());
        let mut nc = || rng.between(0, most);
        let (nc1, nc2) = (nc(), nc());
        add(f1, f2, nc1, nc2, rng.between(28, 31), rng.between(28, 31));
    }
}
