//! Document 01, "Spreading a reading".

use crate::limits::{MAX_AMOUNT, MAX_ENERGY, MAX_PERIOD};
use crate::point_day::within;
use crate::proration::{prorate, Party};
use crate::refusal::{Refusal, Refusals};

/// Prorates the reading over the days of its period, into a lent buffer whose later numbers stay.
pub fn spread(reading: i128, weights: &[i128], buffer: &mut [i128]) -> Result<(), Refusal> {
    let days = weights.len();
    let mut refusals = Refusals::new();
    refusals.when(!(0..=MAX_ENERGY).contains(&reading), Refusal::OutOfRange);
    refusals.when(!(1..=MAX_PERIOD).contains(&days), Refusal::OutOfRange);
    refusals.when(!weights.iter().all(|&weight| within(weight, MAX_AMOUNT)), Refusal::OutOfRange);
    refusals.when(weights.iter().any(|&weight| weight < 0), Refusal::NegativeWeight);
    refusals.when(buffer.len() < days, Refusal::BufferTooShort);
    refusals.decide()?;
    let parties: Vec<Party> = weights
        .iter()
        .enumerate()
        .map(|(day, &weight)| Party { weight, key: day as i128 })
        .collect();
    buffer[..days].copy_from_slice(&prorate(reading, &parties));
    Ok(())
}
