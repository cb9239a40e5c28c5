//! The same estimate in plain Rust. It tests its arguments as the proved call does, all holidays and all entries among them.

use crate::cases::{Case, ESTIMATED, OWN, REAL};

const LIMIT: u64 = 1_000_000_000;
const LAST_DAY: u32 = 30_680;
const OUT_OF_RANGE: u64 = LIMIT + 2;
const NO_BASIS: u64 = LIMIT + 15;
const WRONG_ARRIVAL: u64 = LIMIT + 16;

#[derive(Clone, Copy, PartialEq)]
enum DayType {
    Working,
    Saturday,
    SundayOrHoliday,
}

pub fn estimate(case: &Case) -> u64 {
    if !in_range(case) {
        return OUT_OF_RANGE;
    }
    if let Some(own) = case.own {
        if !matches!(own.length, 1_380 | 1_440 | 1_500) || own.arrival > own.length {
            return WRONG_ARRIVAL;
        }
        if own.arrival + 720 <= own.length {
            return own.kwh;
        }
    }
    let wanted = day_type(case.day, &case.holidays);
    let (mut sum, mut matches, mut real) = (0, 0, false);
    for (i, (&tag, &value)) in case.tags.iter().zip(&case.values).enumerate() {
        if tag == REAL {
            real = true;
            if day_type(case.day - 1 - i as u32, &case.holidays) == wanted {
                sum += value;
                matches += 1;
                if matches == 3 {
                    break;
                }
            }
        }
    }
    match (matches, real) {
        (0, true) => NO_BASIS,
        (0, false) => nearest(case.day_flow * case.factor as u64, 1_000),
        _ => nearest(sum, matches),
    }
}

fn in_range(case: &Case) -> bool {
    let holidays = &case.holidays;
    let entries = case.tags.len();
    case.day <= LAST_DAY
        && holidays.len() <= 2_000
        && holidays.windows(2).all(|pair| pair[0] < pair[1])
        && holidays.last().is_none_or(|&last| last <= LAST_DAY)
        && case.own.is_none_or(|own| own.kwh <= LIMIT)
        && case.day_flow <= LIMIT
        && case.factor <= 1_000
        && entries == case.values.len()
        && entries <= 400
        && entries <= case.day as usize
        && case
            .tags
            .iter()
            .zip(&case.values)
            .all(|(&tag, &value)| !matches!(tag, REAL | ESTIMATED | OWN) || value <= LIMIT)
}

fn day_type(day: u32, holidays: &[u32]) -> DayType {
    match day % 7 {
        2 => DayType::SundayOrHoliday,
        _ if holidays.binary_search(&day).is_ok() => DayType::SundayOrHoliday,
        1 => DayType::Saturday,
        _ => DayType::Working,
    }
}

fn nearest(n: u64, d: u64) -> u64 {
    (2 * n + d) / (2 * d)
}
