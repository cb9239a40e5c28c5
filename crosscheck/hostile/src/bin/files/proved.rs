//! The proved library, on lent memory.

pub use seatpomelo::raw::day_report;

/// The least buffer that a report is written to.
pub const ROOM: usize = 8_192;
