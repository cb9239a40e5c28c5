//! Document 01, "Calendar".

use crate::refusal::{Refusal, Refusals};

/// Gas days are numbered from 0, 1 January 2016, a Friday, to the end of 2099.
pub const LAST_DAY: i128 = 30_680;

pub const MAX_HOLIDAYS: usize = 2_000;

#[derive(Clone, Copy, Debug, PartialEq, Eq)]
pub enum DayType {
    Working,
    /// A Saturday that is no holiday.
    Saturday,
    SundayOrHoliday,
}

/// One month of the calendar.
#[derive(Clone, Copy, Debug, PartialEq, Eq)]
pub struct Month {
    pub year: i128,
    /// 1 to 12.
    pub number: usize,
    /// Its first gas day.
    pub first: i128,
    /// N, the days of the month.
    pub days: i128,
}

pub fn days_of_month(year: i128, number: usize) -> i128 {
    let leap = year % 4 == 0;
    match number {
        2 if leap => 29,
        2 => 28,
        4 | 6 | 9 | 11 => 30,
        _ => 31,
    }
}

/// The month that a gas day lies in, counting from January 2016.
pub fn month_of(day: i128) -> Month {
    let mut month = Month { year: 2016, number: 1, first: 0, days: 31 };
    while day >= month.first + month.days {
        let (year, number) =
            if month.number == 12 { (month.year + 1, 1) } else { (month.year, month.number + 1) };
        let first = month.first + month.days;
        month = Month { year, number, first, days: days_of_month(year, number) };
    }
    month
}

/// The days of the same month a year earlier.
pub fn days_of_month_last_year(day: i128) -> i128 {
    let month = month_of(day);
    days_of_month(month.year - 1, month.number)
}

/// Whether the gas day and the holidays are in range: "up to 2,000 rising day numbers".
pub fn in_range(day: i128, holidays: &[i128]) -> bool {
    is_day(day)
        && holidays.len() <= MAX_HOLIDAYS
        && holidays.iter().all(|&holiday| is_day(holiday))
        && holidays.windows(2).all(|pair| pair[0] < pair[1])
}

pub fn is_day(day: i128) -> bool {
    (0..=LAST_DAY).contains(&day)
}

/// The type of a day; day 0 is a Friday.
pub fn type_of(day: i128, holidays: &[i128]) -> DayType {
    const SATURDAY: i128 = 1;
    const SUNDAY: i128 = 2;
    let weekday = day % 7;
    if weekday == SUNDAY || holidays.contains(&day) {
        DayType::SundayOrHoliday
    } else if weekday == SATURDAY {
        DayType::Saturday
    } else {
        DayType::Working
    }
}

/// "The working days of a month are a mask, bit 0 for the first."
pub fn mask_of(month: &Month, holidays: &[i128]) -> u32 {
    let mut mask = 0;
    for i in 0..month.days {
        if type_of(month.first + i, holidays) == DayType::Working {
            mask |= 1 << i;
        }
    }
    mask
}

/// The call that answers a day's type.
pub fn day_type(day: i128, holidays: &[i128]) -> Result<DayType, Refusal> {
    let mut refusals = Refusals::new();
    refusals.when(!in_range(day, holidays), Refusal::OutOfRange);
    refusals.decide()?;
    Ok(type_of(day, holidays))
}

/// The call that answers a day's month and its mask.
pub fn month(day: i128, holidays: &[i128]) -> Result<(Month, u32), Refusal> {
    let mut refusals = Refusals::new();
    refusals.when(!in_range(day, holidays), Refusal::OutOfRange);
    refusals.decide()?;
    let month = month_of(day);
    Ok((month, mask_of(&month, holidays)))
}

#[cfg(test)]
mod tests {
    use super::*;

    #[test]
    fn the_last_day_ends_2099() {
        let last = month_of(LAST_DAY);
        assert_eq!((last.year, last.number), (2099, 12));
        assert_eq!(last.first + last.days - 1, LAST_DAY);
        assert_eq!(last.first, 30_650);
    }

    #[test]
    fn february_and_its_length_a_year_earlier() {
        assert_eq!((month_of(31).days, days_of_month_last_year(31)), (29, 28));
        let february_2017 = 366 + 31;
        let lengths = (month_of(february_2017).days, days_of_month_last_year(february_2017));
        assert_eq!(lengths, (28, 29));
    }

    #[test]
    fn a_holiday_on_saturday_is_no_saturday() {
        assert_eq!(type_of(1, &[]), DayType::Saturday);
        assert_eq!(type_of(1, &[1]), DayType::SundayOrHoliday);
        assert_eq!(type_of(2, &[]), DayType::SundayOrHoliday);
        assert_eq!(type_of(3, &[]), DayType::Working);
    }
}
