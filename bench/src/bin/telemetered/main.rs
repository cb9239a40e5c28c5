//! Times the proved estimate of a telemetered point beside plain Rust, on the same input in one run, and prints a table.

mod cases;
mod plain;
mod proved;

use std::hint::black_box;

use bench::Random;
use cases::{case, Case, History, Sent};

const CASES: usize = 64;
const ROUNDS: usize = 2_000;

const ROWS: [(History, Sent, &str); 6] = [
    (History::Near, Sent::Not, "third match near"),
    (History::Far, Sent::Not, "third match at the end"),
    (History::NoMatch, Sent::Not, "real readings, no match"),
    (History::New, Sent::Not, "no real reading"),
    (
        History::Near,
        Sent::Late,
        "third match near, an own value that is late",
    ),
    (History::Near, Sent::InTime, "an own value in time"),
];

fn main() {
    let mut random = Random::new(88_172_645_463_325_252);
    println!("| history of 400 entries, 2,000 holidays | proved, ns | Rust, ns | ratio |");
    println!("|---|---|---|---|");
    for (kind, sent, name) in ROWS {
        let cases: Vec<Case> = (0..CASES).map(|_| case(kind, sent, &mut random)).collect();
        compare(&cases);
        let (proved, plain) =
            bench::best_of(ROUNDS, &cases, run(proved::estimate), run(plain::estimate));
        println!(
            "| {name} | {proved:.0} | {plain:.0} | {:.2} |",
            proved / plain
        );
    }
}

/// Both give the same answer.
fn compare(cases: &[Case]) {
    for case in cases {
        assert_eq!(proved::estimate(case), plain::estimate(case));
    }
}

/// Makes an estimate of a case, and keeps the compiler from leaving it out.
fn run(estimate: fn(&Case) -> u64) -> impl FnMut(&Case) {
    move |case| {
        black_box(estimate(black_box(case)));
    }
}
