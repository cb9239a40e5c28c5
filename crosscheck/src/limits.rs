//! The numbers of document 01 that more than one topic uses.

/// Energy of a line, an emission, a reading, a flow: 0 to 1,000,000,000 kWh.
pub const MAX_ENERGY: i128 = 1_000_000_000;

/// Size of a balance, a revision, a whole amount or a weight: 2,000,000,000 kWh.
pub const MAX_AMOUNT: i128 = 2_000_000_000;

/// Users of a point-day.
pub const MAX_USERS: usize = 64;

/// The highest user number.
pub const MAX_USER_NUMBER: i128 = 65_535;

/// Kinds of consumption.
pub const KINDS: usize = 5;

/// Days of the period that a reading is spread over.
pub const MAX_PERIOD: usize = 366;

/// Bytes of input that `prorations`, `replay` and `estimate` take.
pub const MAX_INPUT: usize = 1_048_576;
