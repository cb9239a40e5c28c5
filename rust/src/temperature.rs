//! Degree days, zones and provinces.

use crate::raw;
use crate::refusal::{answer, Refusal};

/// Degree days in fortieths of a degree, from the lowest and highest temperature in tenths, −500 to 600.
///
/// ```
/// assert_eq!(seatpomelo::degree_days(50, 150), Ok(200));
/// ```
pub fn degree_days(tmin: i32, tmax: i32) -> Result<u32, Refusal> {
    let mut fortieths = 0;
    answer(raw::degree_days(tmin, tmax, &mut fortieths))?;
    Ok(fortieths as u32)
}

/// The zone, 1 to 4, of hundredths of a degree day, 0 to 1,000.
///
/// ```
/// assert_eq!(seatpomelo::zone(170), Ok(2));
/// ```
pub fn zone(hundredths: u32) -> Result<u8, Refusal> {
    let mut zone = 0;
    answer(raw::zone(hundredths, &mut zone))?;
    Ok(zone as u8)
}

/// A province of section 1.6.
#[derive(Clone, Copy, Debug, PartialEq, Eq)]
pub struct Province {
    /// Its value, in hundredths of a degree day.
    pub value: u32,
    /// Its zone, 1 to 4.
    pub zone: u8,
}

/// A province, 1 to 48 in the order of section 1.6.
///
/// ```
/// let first = seatpomelo::province(1).unwrap();
/// assert_eq!(seatpomelo::zone(first.value), Ok(first.zone));
/// ```
pub fn province(number: u32) -> Result<Province, Refusal> {
    let (mut value, mut zone) = (0, 0);
    answer(raw::province(number, &mut value, &mut zone))?;
    Ok(Province { value: value as u32, zone: zone as u8 })
}
