//! The calendar. Gas days are counted from 0, 1 January 2016, to 30,680, the end of 2099.

use crate::raw;
use crate::refusal::{answer, Refusal};

/// The type of a gas day.
#[derive(Clone, Copy, Debug, PartialEq, Eq, PartialOrd, Ord, Hash)]
pub enum DayType {
    /// A working day.
    Working,
    /// A Saturday that is no holiday.
    Saturday,
    /// A Sunday or a holiday.
    SundayOrHoliday,
}

/// The type of a gas day. Gas days are counted from 0, 1 January 2016, to 30,680; holidays are up to 2,000 rising gas days.
///
/// ```
/// use seatpomelo::{day_type, DayType};
///
/// assert_eq!(day_type(0, &[]), Ok(DayType::Working)); // a Friday
/// assert_eq!(day_type(0, &[0, 5]), Ok(DayType::SundayOrHoliday));
/// ```
pub fn day_type(day: u32, holidays: &[u32]) -> Result<DayType, Refusal> {
    let mut number = 0;
    answer(raw::day_type(day, holidays, &mut number))?;
    Ok(match number {
        0 => DayType::Working,
        1 => DayType::Saturday,
        _ => DayType::SundayOrHoliday,
    })
}

/// A month with its working days.
#[derive(Clone, Copy, Debug, PartialEq, Eq)]
pub struct Month {
    /// Its first gas day.
    pub first: u32,
    /// How many days it has.
    pub days: u32,
    /// Its working days, bit 0 for the first day.
    pub mask: u32,
    /// How many working days it has, N_lab.
    pub working: u32,
}

/// The month of a gas day, with holidays as in [`day_type`].
///
/// ```
/// let june_2016 = seatpomelo::month(160, &[]).unwrap();
/// assert_eq!((june_2016.first, june_2016.days, june_2016.working), (152, 30, 22));
/// ```
pub fn month(day: u32, holidays: &[u32]) -> Result<Month, Refusal> {
    let (mut first, mut days, mut mask, mut working) = (0, 0, 0, 0);
    answer(raw::month(day, holidays, &mut first, &mut days, &mut mask, &mut working))?;
    Ok(Month { first: first as u32, days: days as u32, mask: mask as u32, working: working as u32 })
}
