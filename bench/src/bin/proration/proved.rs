//! The proved library, as a Rust program calls it on its own numbers.

use seatpomelo::raw;

/// The shares of the amount, or document 01's number of the refusal. Any arguments will do: the call tests them itself.
pub fn split(amount: i64, weights: &[u64], keys: &[u64], shares: &mut [i64]) -> Result<(), u8> {
    match raw::split(amount, weights, keys, shares) {
        0 => Ok(()),
        refusal => Err(refusal),
    }
}
