//! Consumption of a supply point.

use crate::raw;
use crate::refusal::{answer, Refusal};

/// The toll of a supply point.
#[derive(Clone, Copy, Debug, PartialEq, Eq, PartialOrd, Ord, Hash)]
pub enum Toll {
    /// Another toll than 3.4.
    Other = 0,
    /// Toll 3.4.
    Toll34 = 1,
}

/// A day of a history; a value is 0 to 1,000,000,000.
#[derive(Clone, Copy, Debug, PartialEq, Eq, PartialOrd, Ord, Hash)]
pub enum Entry {
    /// No value.
    Nothing,
    /// A real reading.
    Real(u64),
    /// An estimated one.
    Estimated(u64),
    /// The user's own value.
    Own(u64),
}

impl Entry {
    fn tag_and_value(self) -> (u8, u64) {
        match self {
            Entry::Nothing => (0, 0),
            Entry::Real(value) => (1, value),
            Entry::Estimated(value) => (2, value),
            Entry::Own(value) => (3, value),
        }
    }
}

/// A user's own value as it was sent. It is used if it arrived no later than 720 minutes before the gas day ended; a later one is treated as
/// not sent.
#[derive(Clone, Copy, Debug, PartialEq, Eq)]
pub struct OwnValue {
    /// The value, 0 to 1,000,000,000.
    pub kwh: u64,
    /// The minute of its arrival, counted from the start of the gas day, and no later than its end.
    pub arrival: u32,
    /// The length of the gas day in minutes: 1,380, 1,440 or 1,500.
    pub length: u32,
}

/// A telemetered consumption.
#[derive(Clone, Copy, Debug, PartialEq, Eq)]
pub struct Estimate {
    /// The consumption.
    pub consumption: u64,
    /// Entries of the history looked at; 0 if a reading or an own value is used.
    pub looked_at: u64,
}

/// A telemetered supply point on a gas day. Flows, readings and values are 0 to 1,000,000,000.
///
/// ```
/// use seatpomelo::{Entry, Estimate, OwnValue, Telemetered, Toll};
///
/// let point = Telemetered {
///     day: 7, // a Friday
///     holidays: &[],
///     reading: None,
///     own: None,
///     toll: Toll::Other,
///     yearly: None,
///     daily: None,
///     factor: 750,
///     history: &[Entry::Real(100), Entry::Nothing, Entry::Real(103)],
/// };
/// assert_eq!(point.estimate(), Ok(Estimate { consumption: 102, looked_at: 3 }));
///
/// let sent = |arrival| Some(OwnValue { kwh: 90, arrival, length: 1_440 });
/// let in_time = Telemetered { own: sent(720), ..point };
/// assert_eq!(in_time.estimate(), Ok(Estimate { consumption: 90, looked_at: 0 }));
/// let late = Telemetered { own: sent(721), ..point };
/// assert_eq!(late.estimate(), point.estimate());
/// ```
#[derive(Clone, Copy, Debug)]
pub struct Telemetered<'a> {
    /// The gas day.
    pub day: u32,
    /// Up to 2,000 rising gas days.
    pub holidays: &'a [u32],
    /// The day's reading.
    pub reading: Option<u64>,
    /// The user's own value, if one was sent.
    pub own: Option<OwnValue>,
    /// The toll.
    pub toll: Toll,
    /// Q_a, a year.
    pub yearly: Option<u64>,
    /// Q_d, a day.
    pub daily: Option<u64>,
    /// f_c, 0 to 1,000 thousandths.
    pub factor: u32,
    /// Up to 400 days before, and no more than the day's number; the nearest first.
    pub history: &'a [Entry],
}

impl Telemetered<'_> {
    /// The consumption, and the entries looked at.
    pub fn estimate(&self) -> Result<Estimate, Refusal> {
        let (tags, values): (Vec<u8>, Vec<u64>) =
            self.history.iter().map(|entry| entry.tag_and_value()).unzip();
        let own = self.own.map(|own| own.kwh);
        let (arrival, length) = self.own.map_or((0, 0), |own| (own.arrival, own.length));
        let (mut consumption, mut looked_at) = (0, 0);
        answer(raw::telemetered(
            self.day,
            self.holidays,
            self.reading.as_slice(),
            own.as_slice(),
            arrival,
            length,
            self.toll as u8,
            self.yearly.as_slice(),
            self.daily.as_slice(),
            self.factor,
            &tags,
            &values,
            &mut consumption,
            &mut looked_at,
        ))?;
        Ok(Estimate { consumption, looked_at })
    }
}

/// A Type 1 supply point of toll 3.4 on a gas day. Month consumption and flow are 0 to 1,000,000,000; degree days are in fortieths, 0 to
/// 2,600.
///
/// ```
/// let point = seatpomelo::Type1Toll34 {
///     day: 152, // 1 June 2016
///     last_year: Some(3_000),
///     degree_days: 200,
///     last_days: &[200; 30],
///     last_month: None,
///     yearly: None,
/// };
/// assert_eq!(point.estimate(), Ok(100));
/// ```
#[derive(Clone, Copy, Debug)]
pub struct Type1Toll34<'a> {
    /// The gas day.
    pub day: u32,
    /// The same month last year.
    pub last_year: Option<u64>,
    /// The gas day's degree days.
    pub degree_days: u32,
    /// The degree days of last year's month, as many as that month has days.
    pub last_days: &'a [u32],
    /// The last month.
    pub last_month: Option<u64>,
    /// Q_a, a year.
    pub yearly: Option<u64>,
}

impl Type1Toll34<'_> {
    /// The consumption.
    pub fn estimate(&self) -> Result<u64, Refusal> {
        let mut consumption = 0;
        answer(raw::type_1_toll_34(
            self.day,
            self.last_year.as_slice(),
            self.degree_days,
            self.last_days,
            self.last_month.as_slice(),
            self.yearly.as_slice(),
            &mut consumption,
        ))?;
        Ok(consumption)
    }
}

/// A Type 1 supply point of another toll on a gas day. Month consumption and flow are 0 to 1,000,000,000.
///
/// ```
/// let point = seatpomelo::Type1OtherToll {
///     day: 152, // 1 June 2016
///     holidays: &[],
///     last_year: Some(10_000),
///     c_c: 10_000,
///     last_month: None,
///     daily: None,
///     f_c: 750,
///     c_f: 850,
/// };
/// assert_eq!(point.estimate(), Ok(386));
/// ```
#[derive(Clone, Copy, Debug)]
pub struct Type1OtherToll<'a> {
    /// The gas day.
    pub day: u32,
    /// Up to 2,000 rising gas days.
    pub holidays: &'a [u32],
    /// The same month last year.
    pub last_year: Option<u64>,
    /// C_c, 0 to 30,000 ten-thousandths.
    pub c_c: u32,
    /// The last month.
    pub last_month: Option<u64>,
    /// Q_d, a day.
    pub daily: Option<u64>,
    /// f_c, 0 to 1,000 thousandths.
    pub f_c: u32,
    /// C_f, 0 to 1,000 thousandths.
    pub c_f: u32,
}

impl Type1OtherToll<'_> {
    /// The consumption.
    pub fn estimate(&self) -> Result<u64, Refusal> {
        let mut consumption = 0;
        answer(raw::type_1_other_toll(
            self.day,
            self.holidays,
            self.last_year.as_slice(),
            self.c_c,
            self.last_month.as_slice(),
            self.daily.as_slice(),
            self.f_c,
            self.c_f,
            &mut consumption,
        ))?;
        Ok(consumption)
    }
}

/// The Type 2 supply points of a profile on a gas day. Degree days are in fortieths, 0 to 2,600.
///
/// ```
/// let points = seatpomelo::Type2 {
///     consumers: 1_000,
///     profile: 5_000,
///     degree_days: 200,
///     first_winter: &[200; 31],
///     second_winter: None,
/// };
/// assert_eq!(points.estimate(), Ok(5_000));
/// ```
#[derive(Clone, Copy, Debug)]
pub struct Type2<'a> {
    /// How many, 0 to 10,000,000.
    pub consumers: u32,
    /// The profile in Wh, 0 to 10^12; [`profile`] works it out.
    pub profile: u64,
    /// The gas day's degree days.
    pub degree_days: u32,
    /// Those of the month in one winter, 28 to 31 days.
    pub first_winter: &'a [u32],
    /// And in another.
    pub second_winter: Option<&'a [u32]>,
}

impl Type2<'_> {
    /// The consumption.
    pub fn estimate(&self) -> Result<u64, Refusal> {
        let mut consumption = 0;
        answer(raw::type_2(
            self.consumers,
            self.profile,
            self.degree_days,
            if self.second_winter.is_some() { 2 } else { 1 },
            self.first_winter,
            self.second_winter.unwrap_or_default(),
            &mut consumption,
        ))?;
        Ok(consumption)
    }
}

/// One year's month of a profile.
#[derive(Clone, Copy, Debug, PartialEq, Eq)]
pub struct ProfileYear {
    /// The month's consumption, 0 to 10^12.
    pub consumption: u64,
    /// Its consumers, 0 to 10,000,000.
    pub consumers: u32,
    /// Its days, 28 to 31.
    pub days: u32,
}

/// A profile in Wh, from the same month of two years.
///
/// ```
/// use seatpomelo::ProfileYear;
///
/// let year = ProfileYear { consumption: 300_000, consumers: 1_000, days: 30 };
/// assert_eq!(seatpomelo::profile(year, year), Ok(5_000));
/// ```
pub fn profile(first: ProfileYear, second: ProfileYear) -> Result<u64, Refusal> {
    let mut wh = 0;
    answer(raw::profile(
        first.consumption,
        second.consumption,
        first.consumers,
        second.consumers,
        first.days,
        second.days,
        &mut wh,
    ))?;
    Ok(wh)
}
