//! Daily gas allocation by Spain's protocol PD-02: the proved library `libseatpomelo.a` for Rust.
//!
//! A [`PointDay`] is one point between gas networks on one gas day. Users join it, their lines of consumption are entered, the emission is
//! measured, and the balance is allotted:
//!
//! ```
//! use seatpomelo::{Kind, PointDay, Revision};
//!
//! # fn main() -> Result<(), seatpomelo::Refusal> {
//! let mut day = PointDay::fresh();
//! day.join(7)?;
//! day.join(9)?;
//! day.line(7, Kind::Read, 60, 0)?;
//! day.line(9, Kind::Read, 39, 0)?;
//! day.measure(100, 0)?;
//! day.allot()?;
//! let balances: Vec<i64> = day.users().map(|user| user.balance(Kind::Read)).collect();
//! assert_eq!(balances, [1, 0]);
//!
//! day.measure(200, 0)?; // the latest measurement counts
//! assert_eq!(day.revise()?, Revision::Within(100));
//! # Ok(())
//! # }
//! ```
//!
//! Other calls: the report on a day file ([`day_report`]); the calendar ([`day_type`], [`month`]); the consumption of supply points that
//! were not read ([`Telemetered`], [`Type1Toll34`], [`Type1OtherToll`], [`Type2`], [`profile`]); [`degree_days`], [`zone`], [`province`];
//! a late reading over the days of its period ([`spread`]); an amount over weights ([`split`]).
//!
//! Energy is in kWh where nothing else is said. A call that is not made gives a [`Refusal`], and changes nothing. Each call does what
//! document 01 says, with Req 01 of document 02, and that is proved; what is written in Rust here only names numbers and puts lists
//! together.
#![deny(missing_docs, unsafe_code)]

mod calendar;
mod day_file;
mod point_day;
pub mod raw;
mod refusal;
mod shares;
mod supply;
mod sys;
mod temperature;

pub use calendar::{day_type, month, DayType, Month};
pub use day_file::day_report;
pub use point_day::{
    InventoryRow, Kind, Lines, Measurement, PointDay, Revision, Stage, User, STAND_IN_ROWS,
};
pub use refusal::Refusal;
pub use shares::{split, spread};
pub use supply::{
    profile, Entry, Estimate, OwnValue, ProfileYear, Telemetered, Toll, Type1OtherToll,
    Type1Toll34, Type2,
};
pub use temperature::{degree_days, province, zone, Province};
