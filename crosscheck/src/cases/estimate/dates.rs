//! Day types and months.

use super::HUGE_32;
use crate::calendar::{month_of, LAST_DAY, MAX_HOLIDAYS};
use crate::estimate::Operation;

pub fn all(out: &mut Vec<Operation>) {
    every_month(out);
    weekdays(out);
    ranges_of_day(out);
    ranges_of_holidays(out);
    months_with_holidays(out);
}

fn day_type(day: i128, holidays: &[i128]) -> Operation {
    Operation::DayType { day, holidays: holidays.to_vec() }
}

fn month(day: i128, holidays: &[i128]) -> Operation {
    Operation::Month { day, holidays: holidays.to_vec() }
}

/// The first and last day of each of the 1,008 months.
fn every_month(out: &mut Vec<Operation>) {
    let mut day = 0;
    while day <= LAST_DAY {
        let days = month_of(day).days;
        out.push(month(day, &[]));
        out.push(month(day + days - 1, &[]));
        day += days;
    }
}

/// Each weekday, as it is and as a holiday, with holidays around it.
fn weekdays(out: &mut Vec<Operation>) {
    for day in [0, 1, 2, 3, 4, 5, 6, 7, 8, 9, 365, 366, 30_674, 30_675, 30_676, 30_679, LAST_DAY] {
        out.push(day_type(day, &[]));
        out.push(day_type(day, &[day]));
        if day > 0 && day < LAST_DAY {
            out.push(day_type(day, &[day - 1, day + 1]));
            out.push(day_type(day, &[day - 1, day, day + 1]));
        }
    }
}

fn ranges_of_day(out: &mut Vec<Operation>) {
    for day in [LAST_DAY, LAST_DAY + 1, LAST_DAY + 7, 1 << 31, HUGE_32] {
        out.push(day_type(day, &[]));
        out.push(month(day, &[5]));
    }
}

/// Holidays that are not rising, not day numbers, or too many.
fn ranges_of_holidays(out: &mut Vec<Operation>) {
    let lists: [&[i128]; 9] = [
        &[5, 5],
        &[6, 5],
        &[1, 2, 3, 3],
        &[1, 8, 7],
        &[LAST_DAY],
        &[LAST_DAY + 1],
        &[0, 1, HUGE_32],
        &[0],
        &[0, 1, 2, 3, 4, LAST_DAY],
    ];
    for holidays in lists {
        out.push(day_type(6, holidays));
        out.push(month(8, holidays));
    }
    // Every fifteenth day from day 8: the last of the list is looked at too.
    let most: Vec<i128> = (0..MAX_HOLIDAYS as i128).map(|i| 8 + 15 * i).collect();
    out.push(day_type(8 + 15 * (MAX_HOLIDAYS as i128 - 1), &most));
    let one_more: Vec<i128> = (0..=MAX_HOLIDAYS as i128).collect();
    out.push(month(40, &one_more));
}

/// Holidays on working days, Saturdays and Sundays; on every day; on none of the month.
fn months_with_holidays(out: &mut Vec<Operation>) {
    for first in [0, 31, 60, 152, 366, 397, 1_127, 30_650] {
        let last = first + month_of(first).days - 1;
        out.push(month(first + 9, &[first, first + 5, first + 6, first + 12, last]));
        out.push(month(last, &(first..=last).collect::<Vec<i128>>()));
        out.push(month(first, &(first + 1..last).collect::<Vec<i128>>()));
        if first > 0 && last < LAST_DAY {
            out.push(month(first, &[first - 1, last + 1]));
        }
    }
}
