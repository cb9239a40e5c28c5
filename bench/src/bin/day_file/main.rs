//! Times the proved day report beside plain Rust, on the same files in one run, and prints a table.

mod cases;
mod plain;
mod proved;

use std::hint::black_box;

use bench::Random;

const ROUNDS: usize = 1_000;

type Report = fn(&[u8], &mut [u8]) -> Result<usize, u8>;

fn main() {
    let mut random = Random::new(88_172_645_463_325_252);
    println!("| day file | bytes | proved, ns | Rust, ns | ratio |");
    println!("|---|---|---|---|---|");
    row("document 01's E", &vec![cases::e(); 64]);
    let some: Vec<_> = (0..16)
        .map(|_| cases::five_lines_each(&mut random))
        .collect();
    row("64 users, 5 lines each", &some);
    let full: Vec<_> = (0..4).map(|_| cases::full(&mut random)).collect();
    row("64 users, 9,268 lines", &full);
    let cut: Vec<_> = (0..16).map(|_| cases::cut(&mut random)).collect();
    row("the same, the last byte cut", &cut);
}

fn row(name: &str, files: &[Vec<u8>]) {
    for file in files {
        compare(file);
    }
    let (proved, plain) = bench::best_of(
        ROUNDS,
        files,
        run(proved::day_report),
        run(plain::day_report),
    );
    println!(
        "| {name} | {} | {proved:.0} | {plain:.0} | {:.2} |",
        files[0].len(),
        proved / plain
    );
}

/// Both write the same text, or give the same refusal and write nothing.
fn compare(file: &[u8]) {
    let (mut ours, mut theirs) = ([0; 8_192], [0; 8_192]);
    let answer = proved::day_report(file, &mut ours);
    assert_eq!(answer, plain::day_report(file, &mut theirs));
    assert_eq!(ours, theirs);
}

/// Makes the report on a file, and keeps the compiler from leaving it out.
fn run(report: Report) -> impl FnMut(&Vec<u8>) {
    let mut out = vec![0; 8_192];
    move |file| {
        let _ = black_box(report(black_box(file), &mut out));
        black_box(&mut out);
    }
}
