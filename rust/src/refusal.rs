//! Refusals.

use std::error::Error;
use std::fmt;

/// Why a call was refused: the documents' number and condition. A refused call changes nothing. If several apply, the lowest number is
/// given, but [`Refusal::WrongArrival`] right after [`Refusal::OutOfRange`]; and a point-day that is not taken is [`Refusal::OutOfRange`]
/// before any other. docs/refusals.md says what to do about each.
///
/// ```
/// use seatpomelo::{PointDay, Refusal};
///
/// let refusal = PointDay::fresh().allot().unwrap_err();
/// assert_eq!(refusal, Refusal::Unmeasured);
/// assert_eq!(refusal.number(), 7);
/// assert_eq!(refusal.to_string(), "refused 7: allot or stand-in unmeasured");
/// ```
#[derive(Clone, Copy, Debug, PartialEq, Eq, PartialOrd, Ord, Hash)]
#[repr(u8)]
pub enum Refusal {
    /// The stage doesn't take the call, or a stand-in finds a user joined.
    WrongStage = 1,
    /// A value or list outside its stated range, or a point-day that is not taken.
    OutOfRange = 2,
    /// Line for a user not joined.
    NotJoined = 3,
    /// User already joined.
    AlreadyJoined = 4,
    /// All 64 users joined.
    AllJoined = 5,
    /// Point-day sum, or a computed consumption, above 1,000,000,000; Type 2 product above 10^12 Wh.
    AboveLimit = 6,
    /// Allot or stand-in unmeasured.
    Unmeasured = 7,
    /// Allot with no user.
    NoUser = 8,
    /// Stand-in with net at most 100.
    NetTooLow = 9,
    /// No pair in fifteen rows.
    NoPair = 10,
    /// A weight is negative (revise outside tolerance, stand-in, reading split).
    NegativeWeight = 11,
    /// A whole amount would pass 2,000,000,000 in size.
    AmountTooLarge = 12,
    /// Day file malformed.
    Malformed = 13,
    /// Lent buffer under five numbers a row (inventory) or one a day (reading split). Only [`crate::raw`] lends buffers.
    ShortBuffer = 14,
    /// No basis for an estimate.
    NoBasis = 15,
    /// A user's own value: the length of the gas day is none of the three, or the arrival exceeds it.
    WrongArrival = 16,
}

impl Refusal {
    /// All of them, by number.
    pub const ALL: [Refusal; 16] = [
        Refusal::WrongStage,
        Refusal::OutOfRange,
        Refusal::NotJoined,
        Refusal::AlreadyJoined,
        Refusal::AllJoined,
        Refusal::AboveLimit,
        Refusal::Unmeasured,
        Refusal::NoUser,
        Refusal::NetTooLow,
        Refusal::NoPair,
        Refusal::NegativeWeight,
        Refusal::AmountTooLarge,
        Refusal::Malformed,
        Refusal::ShortBuffer,
        Refusal::NoBasis,
        Refusal::WrongArrival,
    ];

    /// The documents' number, 1 to 16.
    pub fn number(self) -> u8 {
        self as u8
    }

    /// The refusal of a number, as [`crate::raw`] returns it; none of 0 and of numbers past 16.
    pub fn from_number(number: u8) -> Option<Refusal> {
        Refusal::ALL.into_iter().find(|refusal| refusal.number() == number)
    }

    fn condition(self) -> &'static str {
        match self {
            Refusal::WrongStage => "the stage doesn't take the call, or a stand-in finds a user joined",
            Refusal::OutOfRange => "a value or list outside its stated range",
            Refusal::NotJoined => "line for a user not joined",
            Refusal::AlreadyJoined => "user already joined",
            Refusal::AllJoined => "all 64 users joined",
            Refusal::AboveLimit => {
                "point-day sum, or a computed consumption, above 1,000,000,000; Type 2 product above 10^12 Wh"
            }
            Refusal::Unmeasured => "allot or stand-in unmeasured",
            Refusal::NoUser => "allot with no user",
            Refusal::NetTooLow => "stand-in with net at most 100",
            Refusal::NoPair => "no pair in fifteen rows",
            Refusal::NegativeWeight => {
                "a weight is negative (revise outside tolerance, stand-in, reading split)"
            }
            Refusal::AmountTooLarge => "a whole amount would pass 2,000,000,000 in size",
            Refusal::Malformed => "day file malformed",
            Refusal::ShortBuffer => {
                "lent buffer under five numbers a row (inventory) or one a day (reading split)"
            }
            Refusal::NoBasis => "no basis for an estimate",
            Refusal::WrongArrival => "length is none of the three, or arrival exceeds it",
        }
    }
}

/// `refused`, the number, and the documents' condition.
impl fmt::Display for Refusal {
    fn fmt(&self, f: &mut fmt::Formatter) -> fmt::Result {
        write!(f, "refused {}: {}", self.number(), self.condition())
    }
}

impl Error for Refusal {}

/// What a status says.
pub(crate) fn answer(status: u8) -> Result<(), Refusal> {
    match status {
        0 => Ok(()),
        number => Err(Refusal::from_number(number).expect("a call returns 0 to 16")),
    }
}
