//! The proved library, as a Rust program calls it on its own numbers.

use seatpomelo::raw;

/// Writes the report on a day file into a buffer and answers how many bytes it has, or document 01's number of the refusal. Any file will do.
pub fn day_report(file: &[u8], out: &mut [u8]) -> Result<usize, u8> {
    let mut written = 0;
    match raw::day_report(file, out, &mut written) {
        0 => Ok(written as usize),
        refusal => Err(refusal),
    }
}
