//! Times the proved spreading of a reading beside plain Rust, on the same input in one run, and prints a table.

mod cases;
mod plain;
mod proved;

use std::hint::black_box;

use bench::{Random, Weights};
use cases::{case, Case};

const DAYS: [usize; 2] = [31, 366];
const CASES: usize = 256;
const ROUNDS: usize = 400;

type Spread = fn(u64, &[i64], &mut [i64]) -> Result<(), u8>;

fn main() {
    let mut random = Random::new(88_172_645_463_325_252);
    println!("| days | weights | proved, ns | Rust, ns | ratio |");
    println!("|---|---|---|---|---|");
    for days in DAYS {
        for kind in Weights::ALL {
            let cases: Vec<Case> = (0..CASES).map(|_| case(days, kind, &mut random)).collect();
            compare(&cases);
            let (proved, plain) =
                bench::best_of(ROUNDS, &cases, run(proved::spread), run(plain::spread));
            println!(
                "| {days} | {} | {proved:.0} | {plain:.0} | {:.2} |",
                kind.name(),
                proved / plain
            );
        }
    }
}

/// Both give the same shares, and leave the number after them.
fn compare(cases: &[Case]) {
    for case in cases {
        let mut ours = vec![7; case.weights.len() + 1];
        let mut theirs = ours.clone();
        assert_eq!(
            proved::spread(case.reading, &case.weights, &mut ours),
            Ok(())
        );
        assert_eq!(
            plain::spread(case.reading, &case.weights, &mut theirs),
            Ok(())
        );
        assert_eq!(ours, theirs);
    }
}

/// Spreads a case's reading, and keeps the compiler from leaving it out.
fn run(spread: Spread) -> impl FnMut(&Case) {
    let mut shares = vec![0; DAYS[DAYS.len() - 1]];
    move |case| {
        let answer = spread(case.reading, black_box(&case.weights), &mut shares);
        black_box(answer).expect("the cases are in range");
        black_box(&mut shares);
    }
}
