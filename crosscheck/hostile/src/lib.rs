//! What the runs through the proved library have in common.

pub mod fenced;

use std::process::ExitCode;

/// The arguments `[N [SEED]]`: 100,000 of seed 1, if nothing is said.
pub fn count_and_seed() -> Result<(usize, u64), String> {
    Ok((argument(1, 100_000)? as usize, argument(2, 1)?))
}

fn argument(place: usize, otherwise: u64) -> Result<u64, String> {
    match std::env::args().nth(place) {
        None => Ok(otherwise),
        Some(text) => text.parse().map_err(|_| format!("{text} is no number")),
    }
}

/// Says what differs, if anything does.
pub fn ended(run: Result<(), String>) -> ExitCode {
    match run {
        Ok(()) => ExitCode::SUCCESS,
        Err(message) => {
            eprintln!("hostile: {message}");
            ExitCode::FAILURE
        }
    }
}
