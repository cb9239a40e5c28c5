//! Times the proved split beside plain Rust, on the same input in one run, and prints a table.

mod cases;
mod plain;
mod proved;

use std::hint::black_box;

use bench::{Random, Weights};
use cases::{case, Case};

const PARTIES: [usize; 3] = [5, 64, 366];
const CASES: usize = 256;
const ROUNDS: usize = 400;

type Split = fn(i64, &[u64], &[u64], &mut [i64]) -> Result<(), u8>;

fn main() {
    let mut random = Random::new(88_172_645_463_325_252);
    println!("| parties | weights | proved, ns | Rust, ns | ratio |");
    println!("|---|---|---|---|---|");
    for parties in PARTIES {
        for kind in Weights::ALL {
            let cases: Vec<Case> = (0..CASES)
                .map(|_| case(parties, kind, &mut random))
                .collect();
            compare(&cases);
            let (proved, plain) = time(&cases);
            println!(
                "| {parties} | {} | {proved:.0} | {plain:.0} | {:.2} |",
                kind.name(),
                proved / plain
            );
        }
    }
}

/// Both give the same shares.
fn compare(cases: &[Case]) {
    for case in cases {
        let mut ours = vec![0; case.weights.len()];
        let mut theirs = ours.clone();
        assert_eq!(
            proved::split(case.amount, &case.weights, &case.keys, &mut ours),
            Ok(())
        );
        assert_eq!(
            plain::split(case.amount, &case.weights, &case.keys, &mut theirs),
            Ok(())
        );
        assert_eq!(ours, theirs);
    }
}

/// Nanoseconds a split, proved and plain.
fn time(cases: &[Case]) -> (f64, f64) {
    bench::best_of(ROUNDS, cases, run(proved::split), run(plain::split))
}

/// Makes a split of a case, and keeps the compiler from leaving it out.
fn run(split: Split) -> impl FnMut(&Case) {
    let mut shares = vec![0; PARTIES[PARTIES.len() - 1]];
    move |case| {
        let answer = split(
            case.amount,
            black_box(&case.weights),
            &case.keys,
            &mut shares,
        );
        black_box(answer).expect("the cases are in range");
        black_box(&mut shares);
    }
}
