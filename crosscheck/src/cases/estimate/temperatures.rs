//! Degree days, zones and provinces.

use super::HUGE_32;
use crate::estimate::Operation;
use crate::rng::Rng;

const SEED: u64 = 4;

pub fn all(out: &mut Vec<Operation>) {
    degree_days(out);
    for hundredths in [0, 1, 36, 168, 169, 170, 171, 200, 238, 239, 240, 241, 300] {
        out.push(Operation::Zone(hundredths));
    }
    for hundredths in [379, 380, 381, 382, 999, 1_000, 1_001, 1 << 31, HUGE_32] {
        out.push(Operation::Zone(hundredths));
    }
    for number in (0..=50).chain([256 + 1, 65_536 + 1, HUGE_32]) {
        out.push(Operation::Province(number));
    }
}

fn degree_days(out: &mut Vec<Operation>) {
    let bounds = [-501, -500, -499, -1, 0, 99, 100, 149, 150, 151, 200, 201, 300, 599, 600, 601];
    for tmin in bounds {
        for tmax in bounds {
            out.push(Operation::DegreeDays { tmin, tmax });
        }
    }
    // P4, and both sides of tmin + tmax = 300.
    for (tmin, tmax) in
        [(150, 200), (140, 300), (100, 200), (50, 150), (0, 100), (100, 199), (99, 201)]
    {
        out.push(Operation::DegreeDays { tmin, tmax });
    }
    for extreme in [i32::MIN as i128, i32::MAX as i128] {
        out.push(Operation::DegreeDays { tmin: extreme, tmax: extreme });
        out.push(Operation::DegreeDays { tmin: 0, tmax: extreme });
        out.push(Operation::DegreeDays { tmin: extreme, tmax: 0 });
    }
    let mut rng = Rng::new(SEED);
    for _ in 0..150 {
        let tmin = rng.between(-500, 600);
        let tmax = rng.between(tmin, 600);
        out.push(Operation::DegreeDays { tmin, tmax });
        let tmin = rng.between(50, 160);
        let tmax = rng.between(tmin - 2, 250);
        out.push(Operation::DegreeDays { tmin, tmax });
    }
}
