//! Type 1 supply points.

use super::{BOUNDS, HUGE_32};
use crate::calendar::{days_of_month_last_year, LAST_DAY};
use crate::estimate::Operation;
use crate::limits::MAX_ENERGY;
use crate::rng::Rng;
use crate::supply::{Type1Other, Type1Toll34};
use crate::temperature::MAX_DEGREE_DAYS;

const SEED: u64 = 7;

const JUNE_2016: i128 = 152;
const FEBRUARY_2018: i128 = 366 + 365 + 31;

pub fn all(out: &mut Vec<Operation>) {
    let mut rng = Rng::new(SEED);
    toll_3_4(out, &mut rng);
    other_tolls(out, &mut rng);
}

/// A day in each of the Februaries that differ from last year's, in December 2099, and others.
const MONTH_DAYS: [i128; 10] = [0, 31, 59, 60, 397, 424, 762, 1_492, 15_000, LAST_DAY];

/// Degree days that fit the gas day's month last year.
fn degree_days(day: i128, greatest: i128, rng: &mut Rng) -> Vec<i128> {
    (0..days_of_month_last_year(day)).map(|_| rng.between(0, greatest)).collect()
}

fn toll_3_4(out: &mut Vec<Operation>, rng: &mut Rng) {
    let mut add = |point: Type1Toll34| out.push(Operation::Type1Toll34(point));
    let base = |day: i128, days: Vec<i128>| Type1Toll34 {
        day,
        last_year: Some(10_000),
        g: 400,
        degree_days: days,
        last_month: None,
        q_a: None,
    };
    for day in MONTH_DAYS {
        let days = degree_days(day, MAX_DEGREE_DAYS, rng);
        add(base(day, days.clone()));
        // One day too few or too many: the length of this year's month is not the one asked for.
        let mut changed = days.clone();
        changed.push(0);
        add(base(day, changed));
        add(base(day, days[1..].to_vec()));
        let (last_year, last_month) = (None, Some(rng.between(0, MAX_ENERGY)));
        add(Type1Toll34 { last_year, last_month, q_a: Some(1), ..base(day, days.clone()) });
        add(Type1Toll34 { last_year, q_a: Some(rng.between(0, MAX_ENERGY)), ..base(day, days) });
    }
    for value in BOUNDS {
        let days = vec![160; 31];
        add(Type1Toll34 { last_year: value, ..base(5, days.clone()) });
        add(Type1Toll34 { last_year: None, last_month: value, ..base(5, days.clone()) });
        add(Type1Toll34 { last_year: None, q_a: value, ..base(5, days.clone()) });
        add(Type1Toll34 { last_month: value, ..base(5, days) });
    }
    for g in [0, 1, MAX_DEGREE_DAYS, MAX_DEGREE_DAYS + 1, HUGE_32] {
        add(Type1Toll34 { g, ..base(5, vec![0; 31]) });
        add(Type1Toll34 { g, last_year: None, last_month: Some(31), ..base(5, vec![0; 31]) });
        let mut days = vec![MAX_DEGREE_DAYS; 31];
        days[30] = g;
        add(base(5, days.clone()));
        add(Type1Toll34 { last_year: None, last_month: Some(31), ..base(5, days) });
    }
    add(base(5, vec![]));
    add(base(LAST_DAY + 1, vec![0; 31]));
    add(base(LAST_DAY + 1, vec![]));
    // The greatest answer: 616,071,429, in the 28 days of February 2018.
    add(Type1Toll34 {
        last_year: Some(MAX_ENERGY),
        g: MAX_DEGREE_DAYS,
        ..base(FEBRUARY_2018, vec![0; 28])
    });
    // Halves of a day go up.
    for last_year in [15, 16, 46, 47] {
        add(Type1Toll34 { last_year: Some(last_year), g: 0, ..base(5, vec![0; 31]) });
    }
    for q_a in [185, 186, 557, 558] {
        add(Type1Toll34 { last_year: None, q_a: Some(q_a), ..base(5, vec![0; 31]) });
    }
    // The month is not rounded before it is divided: 14.6 / 30 in June, 13.8 / 28 in February.
    add(Type1Toll34 { last_year: Some(14), g: 7, ..base(JUNE_2016, vec![0; 30]) });
    add(Type1Toll34 { last_year: Some(13), g: 10, ..base(FEBRUARY_2018, vec![0; 28]) });
    for q_a in [175, 179, 180] {
        add(Type1Toll34 { last_year: None, q_a: Some(q_a), ..base(JUNE_2016, vec![0; 30]) });
    }
    for _ in 0..20 {
        let day = rng.between(0, LAST_DAY);
        let days = degree_days(day, rng.pick(&[0, 40, 900]), rng);
        let last_year = Some(energy(rng));
        add(Type1Toll34 { last_year, g: rng.between(0, 900), ..base(day, days) });
    }
}

fn energy(rng: &mut Rng) -> i128 {
    let greatest = rng.pick(&[1_000, 1_000_000, MAX_ENERGY]);
    rng.between(0, greatest)
}

fn other_tolls(out: &mut Vec<Operation>, rng: &mut Rng) {
    let mut add = |point: Type1Other| out.push(Operation::Type1Other(point));
    let base = |day: i128| Type1Other {
        day,
        holidays: vec![],
        last_year: Some(10_000),
        c_c: 10_000,
        last_month: None,
        q_d: None,
        f_c: 750,
        c_f: 850,
    };
    // P7, on each day of June 2016's first week; the same with holidays.
    for day in 152..159 {
        add(base(day));
        add(Type1Other { holidays: vec![day], ..base(day) });
        add(Type1Other { holidays: vec![154, 155, 160], c_c: 12_345, ..base(day) });
        add(Type1Other { last_year: None, last_month: Some(10_000), c_c: 0, ..base(day) });
        add(Type1Other { last_year: None, q_d: Some(1_000), ..base(day) });
        add(Type1Other { last_year: None, ..base(day) });
    }
    for day in MONTH_DAYS {
        let q_d = Some(energy(rng) / 2);
        add(Type1Other { last_year: None, q_d, ..base(day) });
        add(Type1Other { last_year: q_d, ..base(day) });
    }
    for value in BOUNDS {
        for day in [152, 155] {
            add(Type1Other { last_year: value, ..base(day) });
            add(Type1Other { last_year: None, last_month: value, ..base(day) });
            add(Type1Other { last_year: None, q_d: value, ..base(day) });
            add(Type1Other { q_d: value, ..base(day) });
            add(Type1Other { last_month: value, ..base(day) });
        }
    }
    for c_c in [0, 1, 9_999, 30_000, 30_001, HUGE_32] {
        add(Type1Other { c_c, ..base(152) });
        add(Type1Other { c_c, last_year: None, last_month: Some(44), ..base(152) });
    }
    for part in [0, 1, 500, 999, 1_000, 1_001, HUGE_32] {
        for day in [152, 155] {
            add(Type1Other { c_f: part, ..base(day) });
            add(Type1Other { f_c: part, ..base(day) });
            add(Type1Other { f_c: part, last_year: None, q_d: Some(MAX_ENERGY / 2), ..base(day) });
        }
    }
    for holidays in [vec![3, 3], vec![4, 3], vec![LAST_DAY + 1], vec![HUGE_32], vec![LAST_DAY]] {
        add(Type1Other { holidays, ..base(152) });
    }
    for day in [LAST_DAY + 1, HUGE_32] {
        add(base(day));
    }
    // The month is not rounded before it is divided: 10.7 / 22, 10.5 / 22 and 3.75 / 8.
    add(Type1Other { last_year: Some(10), c_c: 10_700, c_f: 1_000, ..base(JUNE_2016) });
    add(Type1Other { last_year: None, q_d: Some(1), f_c: 350, c_f: 1_000, ..base(JUNE_2016) });
    add(Type1Other { last_year: Some(3), c_c: 12_500, c_f: 0, ..base(JUNE_2016 + 3) });
    few_working_days(&mut add, &base);
    for _ in 0..120 {
        let day = rng.between(0, LAST_DAY);
        let mut holidays: Vec<i128> =
            (0..rng.below(6)).map(|_| (day + rng.between(-20, 20)).clamp(0, LAST_DAY)).collect();
        holidays.sort();
        holidays.dedup();
        let maybe = |rng: &mut Rng| rng.one_in(2).then(|| energy(rng));
        add(Type1Other {
            day,
            holidays,
            last_year: maybe(rng),
            c_c: rng.between(0, 30_000),
            last_month: maybe(rng),
            q_d: maybe(rng),
            f_c: rng.between(0, 1_000),
            c_f: rng.between(0, 1_000),
        });
    }
}

/// Answers at and past 1,000,000,000 (refusal 6), and months with few working days.
fn few_working_days(add: &mut impl FnMut(Type1Other), base: &impl Fn(i128) -> Type1Other) {
    // June 2016 is days 152 to 181; all its working days but the first `left` are holidays.
    let holidays = |left: usize| -> Vec<i128> {
        let working = (152..=181).filter(|day| ![1, 2].contains(&(day % 7)));
        working.skip(left).collect()
    };
    let all_on_working_days = |left: usize, last_year: i128, c_c: i128| Type1Other {
        last_year: Some(last_year),
        c_c,
        c_f: 1_000,
        holidays: holidays(left),
        ..base(152)
    };
    for left in [1, 2, 3, 4] {
        add(all_on_working_days(left, MAX_ENERGY, 30_000));
        add(all_on_working_days(left, MAX_ENERGY - 1, 30_000));
    }
    // Exactly 1,000,000,000; above it by less than a half; by a half; by more.
    let less_than_a_half = (694_299_799, 14_403);
    let a_half = (666_666_667, 15_000);
    let cases = [(MAX_ENERGY, 10_000), less_than_a_half, a_half, (MAX_ENERGY, 10_001)];
    for (last_year, c_c) in cases {
        add(all_on_working_days(1, last_year, c_c));
    }
    // Q_d × 31 over the 21 working days of July 2016 and the 23 of August.
    for q_d in [677_419_354, 677_419_355, 677_419_356, 741_935_483, 741_935_484, 741_935_485] {
        for day in [185, 216] {
            let q_d = Some(q_d);
            add(Type1Other { last_year: None, q_d, f_c: 1_000, c_f: 1_000, ..base(day) });
        }
    }
    // No working day in the month, and one.
    add(Type1Other { holidays: holidays(0), c_f: 0, ..base(152) });
    add(Type1Other { holidays: holidays(0), ..base(170) });
    add(Type1Other { holidays: holidays(1), ..base(152) });
    add(Type1Other { holidays: holidays(1), ..base(153) });
}

#[cfg(test)]
mod tests {
    use super::*;
    use crate::calendar::month_of;

    #[test]
    fn the_days_lie_in_the_months_that_are_meant() {
        let months: Vec<(i128, usize)> = MONTH_DAYS
            .iter()
            .map(|&day| {
                let month = month_of(day);
                (month.year, month.number)
            })
            .collect();
        assert_eq!(months[..2], [(2016, 1), (2016, 2)]);
        assert_eq!(months[4..6], [(2017, 2), (2017, 2)]);
        assert_eq!(months[6..8], [(2018, 2), (2020, 2)]);
        assert_eq!(months[9], (2099, 12));
    }
}
