//! Shares of an amount.

use crate::raw;
use crate::refusal::{answer, Refusal};

/// The most days or parties.
const MOST: usize = 366;

/// Prorates an amount (−1,000,000,000 to 1,000,000,000) over 1 to 366 weights (0 to 2,000,000,000), each with a key, no two alike: of equal
/// remainders the lower key's is served first.
///
/// ```
/// assert_eq!(seatpomelo::split(-10, &[1, 1, 1], &[1, 2, 3]), Ok(vec![-4, -3, -3]));
/// ```
pub fn split(amount: i64, weights: &[u64], keys: &[u64]) -> Result<Vec<i64>, Refusal> {
    let mut out = vec![0; weights.len().min(MOST)];
    answer(raw::split(amount, weights, keys, &mut out))?;
    Ok(out)
}

/// Spreads a reading (0 to 1,000,000,000) over the 1 to 366 days of its period by their weights: the point's provisional consumption, losses
/// and balance of that kind on each day, −2,000,000,000 to 2,000,000,000. A negative weight is [`Refusal::NegativeWeight`].
///
/// ```
/// assert_eq!(seatpomelo::spread(100, &[3, 3, 1]), Ok(vec![43, 43, 14]));
/// ```
pub fn spread(reading: u64, weights: &[i64]) -> Result<Vec<i64>, Refusal> {
    let mut out = vec![0; weights.len().min(MOST)];
    answer(raw::spread(reading, weights, &mut out))?;
    Ok(out)
}
