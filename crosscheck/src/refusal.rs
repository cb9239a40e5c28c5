//! Document 01, "Refusals", and those that the requests of document 02 add.

/// The conditions of the table, by their numbers.
#[derive(Clone, Copy, Debug, PartialEq, Eq, PartialOrd, Ord)]
pub enum Refusal {
    WrongStage = 1,
    OutOfRange = 2,
    NotJoined = 3,
    AlreadyJoined = 4,
    AllJoined = 5,
    TooLarge = 6,
    Unmeasured = 7,
    NoUser = 8,
    NetTooSmall = 9,
    NoPair = 10,
    NegativeWeight = 11,
    WholeAmount = 12,
    MalformedFile = 13,
    BufferTooShort = 14,
    NoBasis = 15,
    /// Tested right after 2.
    WrongArrival = 16,
}

impl Refusal {
    pub fn number(self) -> u8 {
        self as u8
    }
}

/// The refusals whose conditions hold for a call.
#[derive(Default)]
pub struct Refusals {
    found: Vec<Refusal>,
}

impl Refusals {
    pub fn new() -> Self {
        Self::default()
    }

    pub fn when(&mut self, holds: bool, refusal: Refusal) {
        if holds {
            self.found.push(refusal);
        }
    }

    /// "If several apply, the row higher up decides."
    pub fn decide(&self) -> Result<(), Refusal> {
        match self.found.iter().min() {
            Some(&refusal) => Err(refusal),
            None => Ok(()),
        }
    }
}
