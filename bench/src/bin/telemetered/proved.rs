//! The proved library, as a Rust program calls it on its own numbers.

use seatpomelo::raw;

use crate::cases::Case;

/// What a refusal is counted from, as the plain calculation has it.
const LIMIT: u64 = 1_000_000_000;

/// The consumption, or 1,000,000,000 and the number of the refusal. Any arguments will do: the call tests them itself.
pub fn estimate(case: &Case) -> u64 {
    const OTHER_TOLL: u8 = 0;
    let own = case.own.map(|own| own.kwh);
    let (arrival, day_length) = case.own.map_or((0, 0), |own| (own.arrival, own.length));
    let (mut consumption, mut looked_at) = (0, 0);
    let status = raw::telemetered(
        case.day,
        &case.holidays,
        &[],
        own.as_slice(),
        arrival,
        day_length,
        OTHER_TOLL,
        &[],
        &[case.day_flow],
        case.factor,
        &case.tags,
        &case.values,
        &mut consumption,
        &mut looked_at,
    );
    match status {
        0 => consumption,
        refusal => LIMIT + u64::from(refusal),
    }
}
