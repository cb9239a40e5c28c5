//! The point-day, and the calls on it.

use std::fmt;

use crate::raw;
use crate::refusal::{answer, Refusal};

const STAGE: usize = 0;
const ALLOTTED: usize = 1;
const MEASURED: usize = 2;
const EMISSION: usize = 3;
const DOWNSTREAM: usize = 4;
const USER_COUNT: usize = 5;
const USERS: usize = 6;
const CONSUMPTION: usize = 70;
const LOSSES: usize = 390;
const BALANCE: usize = 710;
const REVISION: usize = 1030;

const KINDS: usize = Kind::ALL.len();
const NUMBERS_A_ROW: usize = 5;

/// The rows that a stand-in takes.
pub const STAND_IN_ROWS: usize = 15;

/// A kind of consumption, by its number.
#[derive(Clone, Copy, Debug, PartialEq, Eq, PartialOrd, Ord, Hash)]
#[repr(u8)]
pub enum Kind {
    /// Read.
    Read = 1,
    /// Telemetered but estimated.
    Estimated = 2,
    /// Type 1, toll 3.4.
    Type1Toll34 = 3,
    /// Type 1, other toll.
    Type1OtherToll = 4,
    /// Type 2 (tolls 3.1 to 3.3).
    Type2 = 5,
}

impl Kind {
    /// All kinds, by number.
    pub const ALL: [Kind; 5] =
        [Kind::Read, Kind::Estimated, Kind::Type1Toll34, Kind::Type1OtherToll, Kind::Type2];

    /// 1 to 5.
    pub fn number(self) -> u8 {
        self as u8
    }

    /// The kind of a number, as a day file has it; none of others than 1 to 5.
    ///
    /// ```
    /// use seatpomelo::Kind;
    ///
    /// assert_eq!(Kind::from_number(5), Some(Kind::Type2));
    /// assert_eq!(Kind::from_number(6), None);
    /// ```
    pub fn from_number(number: u8) -> Option<Kind> {
        Kind::ALL.into_iter().find(|kind| kind.number() == number)
    }
}

/// A stage, by its number. Each is first entering, then allotted.
#[derive(Clone, Copy, Debug, PartialEq, Eq, PartialOrd, Ord, Hash)]
pub enum Stage {
    /// Provisional: where a fresh point-day begins, and the stage that is revised.
    Provisional = 0,
    /// Final provisional.
    FinalProvisional = 1,
    /// Final definitive: no stage follows.
    FinalDefinitive = 2,
}

/// What was measured at the point.
#[derive(Clone, Copy, Debug, PartialEq, Eq)]
pub struct Measurement {
    /// Emission.
    pub emission: u64,
    /// Downstream emission, at most the emission.
    pub downstream: u64,
}

impl Measurement {
    /// Emission less downstream emission.
    pub fn net(&self) -> u64 {
        self.emission - self.downstream
    }
}

/// What a revise did. The amount is R, net less everything allotted.
#[derive(Clone, Copy, Debug, PartialEq, Eq)]
pub enum Revision {
    /// R lies in −100 to 100, and nothing changed.
    Within(i64),
    /// R was prorated over the users, and added to their revisions.
    Assigned(i64),
}

/// What became of a list of lines.
#[derive(Clone, Copy, Debug, PartialEq, Eq)]
pub struct Lines {
    /// Lines entered: all, or those before the refused one.
    pub accepted: u64,
    /// Their losses, together.
    pub losses_added: u64,
    /// Why the next line was refused, if one was.
    pub refusal: Option<Refusal>,
}

/// A row of an inventory: a user and kind not all zero.
#[derive(Clone, Copy, Debug, PartialEq, Eq)]
pub struct InventoryRow {
    /// The user's number.
    pub user: u16,
    /// The kind.
    pub kind: Kind,
    /// Consumption.
    pub consumption: i64,
    /// Losses.
    pub losses: i64,
    /// Balance.
    pub balance: i64,
}

/// One point on one gas day: up to 64 users with consumption, losses, balance and revision.
#[derive(Clone, PartialEq, Eq)]
pub struct PointDay {
    numbers: Box<[i64; PointDay::NUMBERS]>,
}

impl PointDay {
    /// How many numbers a point-day has.
    pub const NUMBERS: usize = 1094;

    /// Provisional, entering, empty, unmeasured.
    ///
    /// ```
    /// let day = seatpomelo::PointDay::fresh();
    /// assert_eq!((day.users().count(), day.measurement()), (0, None));
    /// ```
    pub fn fresh() -> PointDay {
        let mut numbers = Box::new([0; PointDay::NUMBERS]);
        let status = raw::fresh(&mut numbers[..]);
        assert_eq!(status, 0, "a list of this length is made fresh");
        PointDay { numbers }
    }

    /// The point-day of stored numbers, as [`PointDay::numbers`] gives them; include/seatpomelo.h says which number is where. One that
    /// is not taken is [`Refusal::OutOfRange`].
    ///
    /// ```
    /// use seatpomelo::{PointDay, Refusal};
    ///
    /// let mut numbers = *PointDay::fresh().numbers();
    /// assert!(PointDay::from_numbers(&numbers).is_ok());
    /// numbers[5] = 65; // users
    /// assert_eq!(PointDay::from_numbers(&numbers), Err(Refusal::OutOfRange));
    /// ```
    pub fn from_numbers(numbers: &[i64]) -> Result<PointDay, Refusal> {
        let numbers: [i64; PointDay::NUMBERS] =
            numbers.try_into().map_err(|_| Refusal::OutOfRange)?;
        let mut day = PointDay { numbers: Box::new(numbers) };
        // No line at all is refused for the point-day alone.
        match day.lines(&[], &[], &[], &[]).refusal {
            None => Ok(day),
            Some(refusal) => Err(refusal),
        }
    }

    /// The numbers, to store them.
    pub fn numbers(&self) -> &[i64; PointDay::NUMBERS] {
        &self.numbers
    }

    /// Join (entering): adds a user, 1 to 65,535.
    ///
    /// ```
    /// use seatpomelo::{PointDay, Refusal};
    ///
    /// let mut day = PointDay::fresh();
    /// assert_eq!(day.join(7), Ok(()));
    /// assert_eq!(day.join(7), Err(Refusal::AlreadyJoined));
    /// ```
    pub fn join(&mut self, user: u16) -> Result<(), Refusal> {
        answer(raw::join(&mut self.numbers[..], user))
    }

    /// Line (entering): adds consumption, 0 to 1,000,000,000, and its losses by a coefficient of 0 to 10,000 parts of 100,000. Gives the
    /// losses added.
    ///
    /// ```
    /// # fn main() -> Result<(), seatpomelo::Refusal> {
    /// let mut day = seatpomelo::PointDay::fresh();
    /// day.join(7)?;
    /// assert_eq!(day.line(7, seatpomelo::Kind::Read, 300, 1_000)?, 3);
    /// # Ok(())
    /// # }
    /// ```
    pub fn line(
        &mut self,
        user: u16,
        kind: Kind,
        consumption: u64,
        coefficient: u64,
    ) -> Result<u64, Refusal> {
        let mut losses = 0;
        let numbers = &mut self.numbers[..];
        let status = raw::line(numbers, user, kind.number(), consumption, coefficient, &mut losses);
        answer(status).map(|()| losses)
    }

    /// Many lines at once: line i has the number i of each list, kinds by their numbers. Line after line until one is refused; those
    /// before it stay entered. Lists of unequal lengths are [`Refusal::OutOfRange`], and nothing is entered.
    ///
    /// ```
    /// use seatpomelo::{Lines, PointDay, Refusal};
    ///
    /// let mut day = PointDay::fresh();
    /// day.join(7).unwrap();
    /// let lines = day.lines(&[7, 8, 7], &[1, 1, 3], &[300, 50, 200], &[1_000, 0, 0]);
    /// // User 8 has not joined.
    /// let refusal = Some(Refusal::NotJoined);
    /// assert_eq!(lines, Lines { accepted: 1, losses_added: 3, refusal });
    /// ```
    pub fn lines(
        &mut self,
        users: &[u16],
        kinds: &[u8],
        consumptions: &[u64],
        coefficients: &[u64],
    ) -> Lines {
        let (mut accepted, mut losses_added) = (0, 0);
        let status = raw::lines(
            &mut self.numbers[..],
            users,
            kinds,
            consumptions,
            coefficients,
            &mut accepted,
            &mut losses_added,
        );
        Lines { accepted, losses_added, refusal: answer(status).err() }
    }

    /// Measure (entering; provisional allotted): emission, 0 to 1,000,000,000, and downstream emission, at most the emission. The latest
    /// counts.
    ///
    /// ```
    /// # fn main() -> Result<(), seatpomelo::Refusal> {
    /// let mut day = seatpomelo::PointDay::fresh();
    /// day.measure(1_000, 100)?;
    /// assert_eq!(day.measurement().map(|measured| measured.net()), Some(900));
    /// # Ok(())
    /// # }
    /// ```
    pub fn measure(&mut self, emission: u64, downstream: u64) -> Result<(), Refusal> {
        answer(raw::measure(&mut self.numbers[..], emission, downstream))
    }

    /// Allot (entering; measured, with a user): shares net less consumption and losses among users and kinds, as balance.
    ///
    /// ```
    /// use seatpomelo::Kind;
    ///
    /// # fn main() -> Result<(), seatpomelo::Refusal> {
    /// let mut day = seatpomelo::PointDay::fresh();
    /// day.join(7)?;
    /// day.line(7, Kind::Type2, 150, 2_000)?;
    /// day.measure(160, 0)?;
    /// day.allot()?;
    /// assert_eq!(day.user(7).unwrap().balance(Kind::Type2), 7);
    /// # Ok(())
    /// # }
    /// ```
    pub fn allot(&mut self) -> Result<(), Refusal> {
        answer(raw::allot(&mut self.numbers[..]))
    }

    /// Stand-in (provisional entering, no user joined; measured): takes fifteen rows, the nearest day's first, each of 0 to 64 pairs of
    /// user number (rising) and amount (−2,000,000,000 to 2,000,000,000). Net is shared by the first row with any pair, as revision.
    /// Gives the rows looked at.
    ///
    /// ```
    /// # fn main() -> Result<(), seatpomelo::Refusal> {
    /// let mut day = seatpomelo::PointDay::fresh();
    /// day.measure(201, 0)?;
    /// let mut rows = vec![vec![]; seatpomelo::STAND_IN_ROWS];
    /// rows[2] = vec![(5, 0), (6, 0)];
    /// assert_eq!(day.stand_in(&rows)?, 3);
    /// let revisions: Vec<i64> = day.users().map(|user| user.revision()).collect();
    /// assert_eq!(revisions, [101, 100]);
    /// # Ok(())
    /// # }
    /// ```
    pub fn stand_in(&mut self, rows: &[impl AsRef<[(u16, i64)]>]) -> Result<u64, Refusal> {
        const PAIRS: usize = 64;
        let counts: Vec<usize> = rows.iter().map(|row| row.as_ref().len()).collect();
        let mut users = vec![0; PAIRS * rows.len()];
        let mut amounts = vec![0; PAIRS * rows.len()];
        for (i, row) in rows.iter().enumerate() {
            // A row of more is refused by its count.
            for (j, &(user, amount)) in row.as_ref().iter().take(PAIRS).enumerate() {
                (users[PAIRS * i + j], amounts[PAIRS * i + j]) = (user, amount);
            }
        }
        let mut looked_at = 0;
        let numbers = &mut self.numbers[..];
        let status = raw::stand_in(numbers, &counts, &users, &amounts, &mut looked_at);
        answer(status).map(|()| looked_at)
    }

    /// Revise (provisional allotted), after a new measurement.
    ///
    /// ```
    /// use seatpomelo::Revision;
    ///
    /// # fn main() -> Result<(), seatpomelo::Refusal> {
    /// let mut day = seatpomelo::PointDay::fresh();
    /// day.join(7)?;
    /// day.measure(900, 0)?;
    /// day.allot()?;
    /// assert_eq!(day.revise()?, Revision::Within(0));
    /// day.measure(1_001, 0)?;
    /// assert_eq!(day.revise()?, Revision::Assigned(101));
    /// # Ok(())
    /// # }
    /// ```
    pub fn revise(&mut self) -> Result<Revision, Refusal> {
        let (mut within, mut amount) = (0, 0);
        answer(raw::revise(&mut self.numbers[..], &mut within, &mut amount))?;
        Ok(if within == 1 { Revision::Within(amount) } else { Revision::Assigned(amount) })
    }

    /// Start-final (provisional or final provisional allotted): the next stage, entering. Users and measurement stay; all else is zero.
    ///
    /// ```
    /// # fn main() -> Result<(), seatpomelo::Refusal> {
    /// let mut day = seatpomelo::PointDay::fresh();
    /// day.join(7)?;
    /// day.measure(900, 0)?;
    /// day.allot()?;
    /// day.start_final()?;
    /// assert_eq!(day.stage(), seatpomelo::Stage::FinalProvisional);
    /// assert!(!day.is_allotted());
    /// # Ok(())
    /// # }
    /// ```
    pub fn start_final(&mut self) -> Result<(), Refusal> {
        answer(raw::start_final(&mut self.numbers[..]))
    }

    /// The inventory of an allotted point-day: a row for each user and kind not all zero.
    ///
    /// ```
    /// # fn main() -> Result<(), seatpomelo::Refusal> {
    /// let mut day = seatpomelo::PointDay::fresh();
    /// day.join(7)?;
    /// day.line(7, seatpomelo::Kind::Estimated, 50, 0)?;
    /// day.measure(60, 0)?;
    /// day.allot()?;
    /// let rows = day.inventory()?;
    /// assert_eq!((rows.len(), rows[0].user, rows[0].consumption, rows[0].balance), (1, 7, 50, 10));
    /// # Ok(())
    /// # }
    /// ```
    pub fn inventory(&self) -> Result<Vec<InventoryRow>, Refusal> {
        let mut out = [0; NUMBERS_A_ROW * 64 * KINDS];
        let mut rows = 0;
        answer(raw::inventory(&self.numbers[..], &mut out, &mut rows))?;
        Ok(out.chunks_exact(NUMBERS_A_ROW).take(rows as usize).map(row).collect())
    }

    /// The stage.
    pub fn stage(&self) -> Stage {
        match self.numbers[STAGE] {
            0 => Stage::Provisional,
            1 => Stage::FinalProvisional,
            _ => Stage::FinalDefinitive,
        }
    }

    /// Whether the stage is allotted, and not entering.
    pub fn is_allotted(&self) -> bool {
        self.numbers[ALLOTTED] == 1
    }

    /// The latest measurement, if there is one.
    pub fn measurement(&self) -> Option<Measurement> {
        (self.numbers[MEASURED] == 1).then(|| Measurement {
            emission: self.numbers[EMISSION] as u64,
            downstream: self.numbers[DOWNSTREAM] as u64,
        })
    }

    /// The users, in the order in which they joined.
    pub fn users(&self) -> impl Iterator<Item = User<'_>> {
        (0..self.numbers[USER_COUNT] as usize).map(|place| User { day: self, place })
    }

    /// The user of a number, if it has joined.
    pub fn user(&self, number: u16) -> Option<User<'_>> {
        self.users().find(|user| user.number() == number)
    }
}

fn row(numbers: &[i64]) -> InventoryRow {
    InventoryRow {
        user: numbers[0] as u16,
        kind: Kind::ALL[numbers[1] as usize - 1],
        consumption: numbers[2],
        losses: numbers[3],
        balance: numbers[4],
    }
}

/// Stage, measurement and users, without the places that are empty.
impl fmt::Debug for PointDay {
    fn fmt(&self, f: &mut fmt::Formatter) -> fmt::Result {
        f.debug_struct("PointDay")
            .field("stage", &self.stage())
            .field("allotted", &self.is_allotted())
            .field("measurement", &self.measurement())
            .field("users", &self.users().collect::<Vec<_>>())
            .finish()
    }
}

/// A user of a point-day, and its figures.
#[derive(Clone, Copy)]
pub struct User<'a> {
    day: &'a PointDay,
    place: usize,
}

impl User<'_> {
    /// The user's number.
    pub fn number(&self) -> u16 {
        self.day.numbers[USERS + self.place] as u16
    }

    /// Consumption of a kind.
    pub fn consumption(&self, kind: Kind) -> i64 {
        self.of_kind(CONSUMPTION, kind)
    }

    /// Losses of a kind.
    pub fn losses(&self, kind: Kind) -> i64 {
        self.of_kind(LOSSES, kind)
    }

    /// Balance of a kind.
    pub fn balance(&self, kind: Kind) -> i64 {
        self.of_kind(BALANCE, kind)
    }

    /// The revision.
    pub fn revision(&self) -> i64 {
        self.day.numbers[REVISION + self.place]
    }

    /// The whole amount: consumption, losses and balance over all kinds, plus revision.
    pub fn whole_amount(&self) -> i64 {
        let figures = |kind| self.consumption(kind) + self.losses(kind) + self.balance(kind);
        Kind::ALL.into_iter().map(figures).sum::<i64>() + self.revision()
    }

    fn of_kind(&self, from: usize, kind: Kind) -> i64 {
        self.day.numbers[from + KINDS * self.place + usize::from(kind.number()) - 1]
    }
}

/// The number, the whole amount and the revision.
impl fmt::Debug for User<'_> {
    fn fmt(&self, f: &mut fmt::Formatter) -> fmt::Result {
        f.debug_struct("User")
            .field("number", &self.number())
            .field("whole_amount", &self.whole_amount())
            .field("revision", &self.revision())
            .finish()
    }
}
