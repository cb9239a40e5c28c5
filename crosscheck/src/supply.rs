//! Document 01, "Consumption of a supply point", with request 01 of document 02.
//!
//! "Each answer is one exact fraction, rounded once to nearest."

use crate::calendar::{self, DayType};
use crate::limits::MAX_ENERGY;
use crate::refusal::{Refusal, Refusals};
use crate::rounding::nearest;
use crate::temperature::{self, are_degree_days, Fraction, MAX_DEGREE_DAYS};

/// f_c and C_f are in thousandths, at most one.
const THOUSAND: i128 = 1_000;
/// C_c is in ten-thousandths, at most three.
const TEN_THOUSAND: i128 = 10_000;
const MAX_C_C: i128 = 30_000;

pub const MAX_HISTORY: usize = 400;
const MATCHES: usize = 3;
/// A new consumer of toll 3.4 takes Q_a / 210.
const NEW_CONSUMER_DAYS: i128 = 210;
const MONTHS: i128 = 12;

pub const MAX_CONSUMERS: i128 = 10_000_000;
/// Profile, month consumption, and consumers times profile: 10^12.
pub const MAX_PROFILE: i128 = 1_000_000_000_000;

/// The minutes that a gas day may have.
pub const DAY_LENGTHS: [i128; 3] = [1_380, 1_440, 1_500];
/// "It is used if arrival is at most length − 720"
pub const TWELVE_HOURS: i128 = 720;

/// A user's own value, as it was sent.
#[derive(Clone, Copy, Debug, PartialEq, Eq)]
pub struct OwnValue {
    pub value: i128,
    /// In minutes from the start of the gas day.
    pub arrival: i128,
    /// Of the gas day, in minutes.
    pub length: i128,
}

impl OwnValue {
    /// Such a gas day exists, and the value came while it ran or as it ended.
    fn came_in_a_gas_day(&self) -> bool {
        DAY_LENGTHS.contains(&self.length) && self.arrival <= self.length
    }

    /// It came twelve hours before the gas day ended, or earlier.
    fn counts(&self) -> bool {
        self.arrival + TWELVE_HOURS <= self.length
    }
}

#[derive(Clone, Copy, Debug, PartialEq, Eq)]
pub enum Entry {
    Nothing,
    Real(i128),
    Estimated(i128),
    Own(i128),
}

impl Entry {
    fn value(&self) -> Option<i128> {
        match *self {
            Entry::Nothing => None,
            Entry::Real(value) | Entry::Estimated(value) | Entry::Own(value) => Some(value),
        }
    }
}

fn is_energy(value: i128) -> bool {
    (0..=MAX_ENERGY).contains(&value)
}

fn energy_or_missing(value: Option<i128>) -> bool {
    value.is_none_or(is_energy)
}

/// A consumption above 1,000,000,000 gives 6.
fn consumption(answer: Fraction) -> Result<i128, Refusal> {
    let rounded = nearest(answer.numerator, answer.denominator);
    if rounded > MAX_ENERGY {
        return Err(Refusal::TooLarge);
    }
    Ok(rounded)
}

fn fraction(numerator: i128, denominator: i128) -> Fraction {
    Fraction { numerator, denominator }
}

#[derive(Clone, Debug)]
pub struct Telemetered {
    pub day: i128,
    pub holidays: Vec<i128>,
    pub reading: Option<i128>,
    /// `None` was not sent: it has neither arrival nor length.
    pub own: Option<OwnValue>,
    pub toll_3_4: bool,
    pub q_a: Option<i128>,
    pub q_d: Option<i128>,
    pub f_c: i128,
    /// Nearest day first.
    pub history: Vec<Entry>,
}

impl Telemetered {
    fn in_range(&self) -> bool {
        let own = self.own.map(|own| own.value);
        let values = [self.reading, own, self.q_a, self.q_d];
        calendar::in_range(self.day, &self.holidays)
            && values.into_iter().all(energy_or_missing)
            && (0..=THOUSAND).contains(&self.f_c)
            && self.history.len() <= MAX_HISTORY
            && self.history.len() as i128 <= self.day
            && self.history.iter().all(|entry| energy_or_missing(entry.value()))
    }

    /// The consumption, and the entries looked at.
    pub fn estimate(&self) -> Result<(i128, usize), Refusal> {
        if !self.in_range() {
            return Err(Refusal::OutOfRange);
        }
        // A reading does not excuse it, nor does it matter whether there is another basis.
        if self.own.is_some_and(|own| !own.came_in_a_gas_day()) {
            return Err(Refusal::WrongArrival);
        }
        // "A later value is treated as not sent"
        let own = self.own.filter(OwnValue::counts);
        if let Some(value) = self.reading.or(own.map(|own| own.value)) {
            return Ok((value, 0));
        }
        let (found, looked_at) = self.search();
        if !found.is_empty() {
            let mean = fraction(found.iter().sum(), found.len() as i128);
            return Ok((consumption(mean)?, looked_at));
        }
        let new = !self.history.iter().any(|entry| matches!(entry, Entry::Real(_)));
        if !new {
            return Err(Refusal::NoBasis);
        }
        let flow = if self.toll_3_4 { self.q_a } else { self.q_d };
        let flow = flow.ok_or(Refusal::NoBasis)?;
        let estimate = if self.toll_3_4 {
            fraction(flow, NEW_CONSUMER_DAYS)
        } else {
            fraction(flow * self.f_c, THOUSAND)
        };
        Ok((consumption(estimate)?, looked_at))
    }

    /// "The search runs past gaps and stops at the third match or at the end."
    fn search(&self) -> (Vec<i128>, usize) {
        let wanted = calendar::type_of(self.day, &self.holidays);
        let mut found = Vec::new();
        let mut looked_at = 0;
        for (i, entry) in self.history.iter().enumerate() {
            looked_at += 1;
            let day = self.day - 1 - i as i128;
            if let Entry::Real(value) = entry {
                if calendar::type_of(day, &self.holidays) == wanted {
                    found.push(*value);
                }
            }
            if found.len() == MATCHES {
                break;
            }
        }
        (found, looked_at)
    }
}

/// Type 1, toll 3.4.
#[derive(Clone, Debug)]
pub struct Type1Toll34 {
    pub day: i128,
    pub last_year: Option<i128>,
    pub g: i128,
    /// The degree days of last year's month, as many as that month has.
    pub degree_days: Vec<i128>,
    pub last_month: Option<i128>,
    pub q_a: Option<i128>,
}

impl Type1Toll34 {
    fn in_range(&self) -> bool {
        calendar::is_day(self.day)
            && [self.last_year, self.last_month, self.q_a].into_iter().all(energy_or_missing)
            && (0..=MAX_DEGREE_DAYS).contains(&self.g)
            && self.degree_days.len() as i128 == calendar::days_of_month_last_year(self.day)
            && are_degree_days(&self.degree_days)
    }

    /// C_m / N.
    pub fn estimate(&self) -> Result<i128, Refusal> {
        if !self.in_range() {
            return Err(Refusal::OutOfRange);
        }
        let month = if let Some(last_year) = self.last_year {
            let mean = temperature::mean(&self.degree_days);
            let c_temp1 = temperature::coefficient(self.g, mean);
            fraction(last_year * c_temp1.numerator, c_temp1.denominator)
        } else if let Some(last_month) = self.last_month {
            fraction(last_month, 1)
        } else if let Some(q_a) = self.q_a {
            fraction(q_a, MONTHS)
        } else {
            return Err(Refusal::NoBasis);
        };
        let days = calendar::month_of(self.day).days;
        consumption(fraction(month.numerator, month.denominator * days))
    }
}

/// Type 1, other tolls.
#[derive(Clone, Debug)]
pub struct Type1Other {
    pub day: i128,
    pub holidays: Vec<i128>,
    pub last_year: Option<i128>,
    pub c_c: i128,
    pub last_month: Option<i128>,
    pub q_d: Option<i128>,
    pub f_c: i128,
    pub c_f: i128,
}

impl Type1Other {
    fn in_range(&self) -> bool {
        calendar::in_range(self.day, &self.holidays)
            && [self.last_year, self.last_month, self.q_d].into_iter().all(energy_or_missing)
            && (0..=MAX_C_C).contains(&self.c_c)
            && (0..=THOUSAND).contains(&self.f_c)
            && (0..=THOUSAND).contains(&self.c_f)
    }

    /// "C_m × C_f / N_lab on working days, C_m × (1 − C_f) / N_res on all others."
    pub fn estimate(&self) -> Result<i128, Refusal> {
        if !self.in_range() {
            return Err(Refusal::OutOfRange);
        }
        let month = calendar::month_of(self.day);
        let n_lab = calendar::mask_of(&month, &self.holidays).count_ones() as i128;
        let n_res = month.days - n_lab;
        let c_m = if let Some(last_year) = self.last_year {
            fraction(last_year * self.c_c, TEN_THOUSAND)
        } else if let Some(last_month) = self.last_month {
            fraction(last_month, 1)
        } else if let Some(q_d) = self.q_d {
            fraction(q_d * self.f_c * month.days, THOUSAND)
        } else {
            return Err(Refusal::NoBasis);
        };
        let working = calendar::type_of(self.day, &self.holidays) == DayType::Working;
        let (part, days) = if working { (self.c_f, n_lab) } else { (THOUSAND - self.c_f, n_res) };
        consumption(fraction(c_m.numerator * part, c_m.denominator * THOUSAND * days))
    }
}

/// Type 2: the consumers of a zone and toll together.
#[derive(Clone, Debug)]
pub struct Type2 {
    pub consumers: i128,
    /// In Wh.
    pub profile: i128,
    pub g: i128,
    /// The degree days of the month in one or two winters.
    pub winters: Vec<Vec<i128>>,
}

impl Type2 {
    fn in_range(&self) -> bool {
        (0..=MAX_CONSUMERS).contains(&self.consumers)
            && (0..=MAX_PROFILE).contains(&self.profile)
            && (0..=MAX_DEGREE_DAYS).contains(&self.g)
            && (1..=2).contains(&self.winters.len())
            && self
                .winters
                .iter()
                .all(|days| (28..=31).contains(&days.len()) && are_degree_days(days))
    }

    /// Consumers × profile × C_temp2 / 1,000, in kWh.
    pub fn estimate(&self) -> Result<i128, Refusal> {
        if !self.in_range() {
            return Err(Refusal::OutOfRange);
        }
        let product = self.consumers * self.profile;
        if product > MAX_PROFILE {
            return Err(Refusal::TooLarge);
        }
        let mean = temperature::mean_of_winters(&self.winters);
        let c_temp2 = temperature::coefficient(self.g, mean);
        consumption(fraction(product * c_temp2.numerator, THOUSAND * c_temp2.denominator))
    }
}

/// The Type 2 profile of two years, in Wh.
#[derive(Clone, Debug)]
pub struct Profile {
    pub month_consumption: [i128; 2],
    pub consumers: [i128; 2],
    pub days: [i128; 2],
}

impl Profile {
    fn in_range(&self) -> bool {
        self.month_consumption.iter().all(|f| (0..=MAX_PROFILE).contains(f))
            && self.consumers.iter().all(|nc| (0..=MAX_CONSUMERS).contains(nc))
            && self.days.iter().all(|n| (28..=31).contains(n))
    }

    /// "nearest of 1,000 × (F1 + F2) / ((NC1 + NC2) × (N1 + N2))"
    pub fn estimate(&self) -> Result<i128, Refusal> {
        let mut refusals = Refusals::new();
        refusals.when(!self.in_range(), Refusal::OutOfRange);
        let (f, nc, n): (i128, i128, i128) = (
            self.month_consumption.iter().sum(),
            self.consumers.iter().sum(),
            self.days.iter().sum(),
        );
        refusals.when(nc == 0, Refusal::NoBasis);
        refusals.decide()?;
        Ok(nearest(THOUSAND * f, nc * n))
    }
}

#[cfg(test)]
mod tests {
    use super::*;

    #[test]
    fn the_limit_is_for_the_rounded_answer() {
        let mean_160 = vec![160; 30];
        let type2 =
            Type2 { consumers: 1, profile: 996_884_735_203, g: 161, winters: vec![mean_160] };
        assert_eq!(type2.estimate(), Ok(1_000_000_000));
    }

    /// On a Friday, with three readings of Fridays and one more entry behind them.
    fn with_own(own: OwnValue) -> Telemetered {
        let mut history = vec![Entry::Nothing; 22];
        for week in [7, 14, 21] {
            history[week - 1] = Entry::Real(week as i128);
        }
        Telemetered {
            day: 700,
            holidays: vec![],
            reading: None,
            own: Some(own),
            toll_3_4: false,
            q_a: None,
            q_d: None,
            f_c: 750,
            history,
        }
    }

    #[test]
    fn an_own_value_counts_until_twelve_hours_before_the_end() {
        for (length, limit) in [(1_380, 660), (1_440, 720), (1_500, 780)] {
            let came = |arrival| with_own(OwnValue { value: 5, arrival, length }).estimate();
            assert_eq!(came(0), Ok((5, 0)));
            assert_eq!(came(limit), Ok((5, 0)));
            assert_eq!(came(limit + 1), Ok((14, 21)));
            assert_eq!(came(length), Ok((14, 21)));
            assert_eq!(came(length + 1), Err(Refusal::WrongArrival));
        }
    }

    #[test]
    fn a_wrong_arrival_comes_after_every_range_and_before_the_basis() {
        let own = OwnValue { value: 5, arrival: 0, length: 1_410 };
        let wrong = with_own(own);
        assert_eq!(wrong.estimate(), Err(Refusal::WrongArrival));
        let read = Telemetered { reading: Some(1), ..wrong.clone() };
        assert_eq!(read.estimate(), Err(Refusal::WrongArrival));
        let without_basis = Telemetered { history: vec![], ..wrong.clone() };
        assert_eq!(without_basis.estimate(), Err(Refusal::WrongArrival));
        let too_long = vec![Entry::Nothing; MAX_HISTORY + 1];
        assert_eq!(Telemetered { history: too_long, ..wrong }.estimate(), Err(Refusal::OutOfRange));
        let too_large = with_own(OwnValue { value: MAX_ENERGY + 1, ..own });
        assert_eq!(too_large.estimate(), Err(Refusal::OutOfRange));
        let late = OwnValue { value: MAX_ENERGY + 1, arrival: 1_440, length: 1_440 };
        assert_eq!(with_own(late).estimate(), Err(Refusal::OutOfRange));
    }

    #[test]
    fn the_greatest_profile() {
        let profile =
            Profile { month_consumption: [MAX_PROFILE; 2], consumers: [1, 0], days: [28, 28] };
        assert_eq!(profile.estimate(), Ok(35_714_285_714_286));
    }
}
