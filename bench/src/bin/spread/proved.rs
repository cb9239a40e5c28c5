//! The proved library, as a Rust program calls it on its own numbers.

use seatpomelo::raw;

/// A share for each day, or document 01's number of the refusal. Any arguments will do: the call tests them itself.
pub fn spread(reading: u64, weights: &[i64], out: &mut [i64]) -> Result<(), u8> {
    match raw::spread(reading, weights, out) {
        0 => Ok(()),
        refusal => Err(refusal),
    }
}
