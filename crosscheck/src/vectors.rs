//! Confirms that the calculation gives the answers of crosscheck/vectors.

use std::path::Path;

use crate::day_file;
use crate::estimate;
use crate::files;
use crate::old_vectors;
use crate::replay;
use crate::run::Run;

pub fn confirm(vectors: &Path) -> Result<(), String> {
    for name in ["replay-basic", "replay-final", "replay-all"] {
        let run = replay::run(&files::read(&vectors.join(format!("{name}.in")))?);
        confirm_one(vectors, name, &run)?;
    }
    for name in ["estimate-supply", "estimate-all"] {
        let run = estimate::run(&old_vectors::read(vectors, &format!("{name}.in"))?);
        confirm_one(vectors, name, &run)?;
    }
    confirm_day_files(&vectors.join("dayreport"))?;
    confirm_arrivals(vectors)
}

/// The cases of request 01, and its malformed runs.
fn confirm_arrivals(vectors: &Path) -> Result<(), String> {
    let run = estimate::run(&files::read(&vectors.join("requests/01/estimate.in"))?);
    confirm_one(vectors, "requests/01/estimate", &run)?;
    let inputs = files::in_folder(&vectors.join("requests/01/malformed"), "in")?;
    for input in &inputs {
        compare(&input.with_extension("out"), &estimate::run(&files::read(input)?))?;
    }
    println!("vectors, requests/01/malformed: {} runs confirmed", inputs.len());
    Ok(())
}

fn confirm_day_files(folder: &Path) -> Result<(), String> {
    let mut count = 0;
    for input in files::in_folder(folder, "rep")? {
        let output = input.with_extension("out");
        let report = day_file::report(&files::read(&input)?);
        files::compare(&output, &files::read(&output)?, report.as_bytes())?;
        count += 1;
    }
    println!("vectors, dayreport: {count} files confirmed");
    Ok(())
}

fn confirm_one(vectors: &Path, name: &str, run: &Run) -> Result<(), String> {
    compare(&vectors.join(format!("{name}.out")), run)?;
    println!("vectors, {name}: {} operations confirmed", run.operations);
    Ok(())
}

fn compare(path: &Path, run: &Run) -> Result<(), String> {
    let answers = files::read(path)?;
    let answers = String::from_utf8_lossy(&answers);
    let (stored, ours) = (rows_sorted(&answers), rows_sorted(&run.text));
    files::compare(path, stored.as_bytes(), ours.as_bytes())
}

/// The text with the rows of each inventory in one order: they are compared as a set.
fn rows_sorted(text: &str) -> String {
    text.split('\n').map(sort_rows).collect::<Vec<String>>().join("\n")
}

fn sort_rows(line: &str) -> String {
    let mut words = line.split(' ');
    if words.next() != Some("inventory") {
        return line.to_string();
    }
    let numbers: Vec<i128> = words.map(|word| word.parse().unwrap()).collect();
    let count = numbers[0] as usize;
    let (rows, rest) = numbers[1..].split_at(5 * count);
    let mut rows: Vec<&[i128]> = rows.chunks(5).collect();
    rows.sort();
    format!("inventory {count} {rows:?} {rest:?}")
}
