//! Document 01, "The point-day": what it holds, and which point-days are taken.

use crate::limits::{KINDS, MAX_AMOUNT, MAX_ENERGY, MAX_USERS, MAX_USER_NUMBER};

#[derive(Clone, Copy, Debug, PartialEq, Eq, PartialOrd, Ord)]
pub enum Stage {
    Provisional,
    FinalProvisional,
    FinalDefinitive,
}

impl Stage {
    pub const ALL: [Stage; 3] =
        [Stage::Provisional, Stage::FinalProvisional, Stage::FinalDefinitive];

    pub fn next(self) -> Option<Stage> {
        match self {
            Stage::Provisional => Some(Stage::FinalProvisional),
            Stage::FinalProvisional => Some(Stage::FinalDefinitive),
            Stage::FinalDefinitive => None,
        }
    }
}

#[derive(Clone, Copy, Debug, PartialEq, Eq)]
pub struct Measurement {
    pub emission: i128,
    pub downstream: i128,
}

impl Measurement {
    /// Emission 0 to 1,000,000,000, downstream 0 to emission.
    pub fn in_range(&self) -> bool {
        (0..=MAX_ENERGY).contains(&self.emission) && (0..=self.emission).contains(&self.downstream)
    }

    /// "Net is the difference."
    pub fn net(&self) -> i128 {
        self.emission - self.downstream
    }
}

/// One of the 64 places for a user: its number and its figures, by kind.
#[derive(Clone, Debug, Default, PartialEq, Eq)]
pub struct Slot {
    pub number: i128,
    pub consumption: [i128; KINDS],
    pub losses: [i128; KINDS],
    pub balance: [i128; KINDS],
    pub revision: i128,
}

impl Slot {
    pub fn of_user(number: i128) -> Slot {
        Slot { number, ..Slot::default() }
    }

    /// "Whole amount: a user's consumption, losses and balance over all kinds, plus revision."
    pub fn whole_amount(&self) -> i128 {
        sum(&self.consumption) + sum(&self.losses) + sum(&self.balance) + self.revision
    }
}

pub fn sum(numbers: &[i128]) -> i128 {
    numbers.iter().sum()
}

pub fn is_user_number(number: i128) -> bool {
    (1..=MAX_USER_NUMBER).contains(&number)
}

/// At most `limit` in size.
pub fn within(number: i128, limit: i128) -> bool {
    (-limit..=limit).contains(&number)
}

#[derive(Clone, Debug, PartialEq, Eq)]
pub struct PointDay {
    pub stage: Stage,
    pub allotted: bool,
    pub measurement: Option<Measurement>,
    /// Users joined: the first `count` slots. A point-day handed in may claim over 64.
    pub count: usize,
    pub slots: Vec<Slot>,
}

impl PointDay {
    /// "Fresh is provisional, entering, empty, unmeasured."
    pub fn fresh() -> PointDay {
        PointDay {
            stage: Stage::Provisional,
            allotted: false,
            measurement: None,
            count: 0,
            slots: vec![Slot::default(); MAX_USERS],
        }
    }

    pub fn users(&self) -> &[Slot] {
        &self.slots[..self.count]
    }

    pub fn users_mut(&mut self) -> &mut [Slot] {
        &mut self.slots[..self.count]
    }

    pub fn slot_of(&self, user: i128) -> Option<usize> {
        self.users().iter().position(|slot| slot.number == user)
    }

    pub fn net(&self) -> Option<i128> {
        self.measurement.map(|measurement| measurement.net())
    }

    /// Consumption over all users and kinds.
    pub fn consumption(&self) -> i128 {
        self.users().iter().map(|slot| sum(&slot.consumption)).sum()
    }

    /// Losses over all users and kinds.
    pub fn losses(&self) -> i128 {
        self.users().iter().map(|slot| sum(&slot.losses)).sum()
    }

    /// Balance over all users and kinds.
    pub fn balance(&self) -> i128 {
        self.users().iter().map(|slot| sum(&slot.balance)).sum()
    }

    /// The users' whole amounts together: "everything allotted".
    pub fn whole_amount(&self) -> i128 {
        self.users().iter().map(Slot::whole_amount).sum()
    }

    /// Whether the point-day is taken: what is not "gives 2 before any other test".
    pub fn taken(&self) -> bool {
        self.count <= MAX_USERS
            && self.numbers_right()
            && self.empty_past_last_user()
            && self.measurement.is_none_or(|measurement| measurement.in_range())
            && self.consumption_and_losses_right()
            && self.balance_and_revision_right()
            && self.whole_amounts_right()
            && !(self.allotted && (self.count == 0 || self.measurement.is_none()))
    }

    /// No number 0, and none twice.
    fn numbers_right(&self) -> bool {
        let numbers: Vec<i128> = self.users().iter().map(|slot| slot.number).collect();
        let mut distinct = numbers.clone();
        distinct.sort();
        distinct.dedup();
        distinct.len() == numbers.len() && numbers.iter().all(|&number| is_user_number(number))
    }

    fn empty_past_last_user(&self) -> bool {
        self.slots[self.count..].iter().all(|slot| *slot == Slot::default())
    }

    /// None negative, and together at most 1,000,000,000.
    fn consumption_and_losses_right(&self) -> bool {
        let mut cells =
            self.users().iter().flat_map(|slot| slot.consumption.iter().chain(&slot.losses));
        cells.all(|&cell| cell >= 0) && self.consumption() + self.losses() <= MAX_ENERGY
    }

    /// None above 2,000,000,000 in size, and all zero while entering.
    fn balance_and_revision_right(&self) -> bool {
        let limit = if self.allotted { MAX_AMOUNT } else { 0 };
        self.users().iter().all(|slot| {
            within(slot.revision, limit) && slot.balance.iter().all(|&cell| within(cell, limit))
        })
    }

    /// None above 2,000,000,000 in size, and together 0 to 1,000,000,000.
    fn whole_amounts_right(&self) -> bool {
        self.users().iter().all(|slot| within(slot.whole_amount(), MAX_AMOUNT))
            && (0..=MAX_ENERGY).contains(&self.whole_amount())
    }
}
