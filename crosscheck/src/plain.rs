//! A point-day in 1,094 plain numbers, and the calls on it, as the library for C and Rust has them.
//!
//! Number 0 is the stage (0 to 2); 1 and 2 whether allotted and measured (0, 1); 3 and 4 emission
//! and downstream emission, within their limits also if not measured, and then kept as they are; 5
//! the count of users. Then 64 user numbers, 320 each of consumption, losses and balance, user by
//! user and kind by kind, and 64 revisions.

use std::fmt;

use crate::calls::{self, Answer, Call, LineArguments, Row, STAND_IN_ROWS};
use crate::inventory;
use crate::limits::{KINDS, MAX_USERS, MAX_USER_NUMBER};
use crate::point_day::{Measurement, PointDay, Slot, Stage};
use crate::refusal::Refusal;

pub const STAGE: usize = 0;
pub const ALLOTTED: usize = 1;
pub const MEASURED: usize = 2;
pub const EMISSION: usize = 3;
pub const DOWNSTREAM: usize = 4;
pub const COUNT: usize = 5;
pub const USERS_AT: usize = 6;
pub const CONSUMPTION_AT: usize = USERS_AT + MAX_USERS;
pub const LOSSES_AT: usize = CONSUMPTION_AT + CELLS;
pub const BALANCE_AT: usize = LOSSES_AT + CELLS;
pub const REVISION_AT: usize = BALANCE_AT + CELLS;
pub const NUMBERS: usize = REVISION_AT + MAX_USERS;

/// A cell for each user and kind.
pub const CELLS: usize = KINDS * MAX_USERS;

/// The pairs that a stand-in's lists have room for.
pub const PAIRS: usize = STAND_IN_ROWS * MAX_USERS;

/// The numbers of a point-day; emission and downstream emission are 0 if it is not measured.
pub fn numbers(day: &PointDay) -> Vec<i64> {
    let none = Measurement { emission: 0, downstream: 0 };
    let measurement = day.measurement.unwrap_or(none);
    let mut all = vec![
        day.stage as i128,
        day.allotted as i128,
        day.measurement.is_some() as i128,
        measurement.emission,
        measurement.downstream,
        day.count as i128,
    ];
    all.extend(day.slots.iter().map(|slot| slot.number));
    all.extend(day.slots.iter().flat_map(|slot| slot.consumption));
    all.extend(day.slots.iter().flat_map(|slot| slot.losses));
    all.extend(day.slots.iter().flat_map(|slot| slot.balance));
    all.extend(day.slots.iter().map(|slot| slot.revision));
    all.into_iter().map(|number| i64::try_from(number).expect("a number of 64 bits")).collect()
}

/// The point-day that numbers stand for, if they stand for any. "Emission … past the limits" is
/// none, measured or not.
pub fn point_day(numbers: &[i64]) -> Option<PointDay> {
    if numbers.len() != NUMBERS {
        return None;
    }
    let stage = *Stage::ALL.get(usize::try_from(numbers[STAGE]).ok()?)?;
    let allotted = flag(numbers[ALLOTTED])?;
    let stored = Measurement {
        emission: numbers[EMISSION] as i128,
        downstream: numbers[DOWNSTREAM] as i128,
    };
    if !stored.in_range() {
        return None;
    }
    let measurement = flag(numbers[MEASURED])?.then_some(stored);
    let count = usize::try_from(numbers[COUNT]).ok()?;
    let slots: Option<Vec<Slot>> = (0..MAX_USERS).map(|place| slot(numbers, place)).collect();
    Some(PointDay { stage, allotted, measurement, count, slots: slots? })
}

fn flag(number: i64) -> Option<bool> {
    match number {
        0 => Some(false),
        1 => Some(true),
        _ => None,
    }
}

fn slot(numbers: &[i64], place: usize) -> Option<Slot> {
    let number = numbers[USERS_AT + place] as i128;
    let cells = |at: usize| std::array::from_fn(|kind| numbers[at + KINDS * place + kind] as i128);
    (0..=MAX_USER_NUMBER).contains(&number).then(|| Slot {
        number,
        consumption: cells(CONSUMPTION_AT),
        losses: cells(LOSSES_AT),
        balance: cells(BALANCE_AT),
        revision: numbers[REVISION_AT + place] as i128,
    })
}

/// A call with its arguments.
#[derive(Clone, Debug, PartialEq, Eq)]
pub enum PlainCall {
    Fresh,
    Join(u16),
    Line(PlainLine),
    Lines(PlainLines),
    Measure {
        emission: u64,
        downstream: u64,
    },
    Allot,
    Revise,
    StartFinal,
    StandIn(PlainRows),
    /// With a lent buffer of so many numbers.
    Inventory(usize),
}

impl PlainCall {
    pub fn name(&self) -> &'static str {
        match self {
            PlainCall::Fresh => "fresh",
            PlainCall::Join(_) => "join",
            PlainCall::Line(_) => "line",
            PlainCall::Lines(_) => "lines",
            PlainCall::Measure { .. } => "measure",
            PlainCall::Allot => "allot",
            PlainCall::Revise => "revise",
            PlainCall::StartFinal => "start-final",
            PlainCall::StandIn(_) => "stand-in",
            PlainCall::Inventory(_) => "inventory",
        }
    }
}

#[derive(Clone, Copy, Debug, PartialEq, Eq)]
pub struct PlainLine {
    pub user: u16,
    pub kind: u8,
    pub consumption: u64,
    pub coefficient: u64,
}

/// Lines in four lists.
#[derive(Clone, Debug, Default, PartialEq, Eq)]
pub struct PlainLines {
    pub users: Vec<u16>,
    pub kinds: Vec<u8>,
    pub consumptions: Vec<u64>,
    pub coefficients: Vec<u64>,
}

impl PlainLines {
    pub fn of(lines: &[PlainLine]) -> PlainLines {
        PlainLines {
            users: lines.iter().map(|line| line.user).collect(),
            kinds: lines.iter().map(|line| line.kind).collect(),
            consumptions: lines.iter().map(|line| line.consumption).collect(),
            coefficients: lines.iter().map(|line| line.coefficient).collect(),
        }
    }

    /// None if the lists are of unequal lengths.
    fn lines(&self) -> Option<Vec<PlainLine>> {
        let count = self.users.len();
        let lengths = [self.kinds.len(), self.consumptions.len(), self.coefficients.len()];
        let line = |i| PlainLine {
            user: self.users[i],
            kind: self.kinds[i],
            consumption: self.consumptions[i],
            coefficient: self.coefficients[i],
        };
        (lengths == [count; 3]).then(|| (0..count).map(line).collect())
    }
}

/// The rows of a stand-in in three lists: fifteen counts; user and amount of pair j of row i at
/// 64 × i + j.
#[derive(Clone, PartialEq, Eq)]
pub struct PlainRows {
    pub counts: Vec<usize>,
    pub users: Vec<u16>,
    pub amounts: Vec<i64>,
}

impl PlainRows {
    /// The rows, with `unused` wherever there is no pair.
    pub fn of(rows: &[Row], unused: (u16, i64)) -> PlainRows {
        let mut plain = PlainRows {
            counts: rows.iter().map(Vec::len).collect(),
            users: vec![unused.0; PAIRS],
            amounts: vec![unused.1; PAIRS],
        };
        for (i, row) in rows.iter().enumerate() {
            for (j, &(user, amount)) in row.iter().take(MAX_USERS).enumerate() {
                plain.users[MAX_USERS * i + j] = user as u16;
                plain.amounts[MAX_USERS * i + j] = amount as i64;
            }
        }
        plain
    }

    /// Lists of other lengths hold no rows, and none are not the fifteen of a stand-in.
    fn rows(&self) -> Vec<Row> {
        let lengths = (self.counts.len(), self.users.len(), self.amounts.len());
        if lengths != (STAND_IN_ROWS, PAIRS, PAIRS) {
            return Vec::new();
        }
        (0..STAND_IN_ROWS).map(|i| self.row(i)).collect()
    }

    /// One of over 64 pairs has no room for them: any 65 stand for it.
    fn row(&self, i: usize) -> Row {
        let count = self.counts[i];
        if count > MAX_USERS {
            return vec![(1, 0); MAX_USERS + 1];
        }
        let pairs = MAX_USERS * i..MAX_USERS * i + count;
        pairs.map(|at| (self.users[at] as i128, self.amounts[at] as i128)).collect()
    }
}

/// The lists' lengths, the counts, and the pairs of the rows.
impl fmt::Debug for PlainRows {
    fn fmt(&self, f: &mut fmt::Formatter) -> fmt::Result {
        let (counts, users, amounts) = (&self.counts, self.users.len(), self.amounts.len());
        write!(f, "counts {counts:?}, {users} users, {amounts} amounts, rows {:?}", self.rows())
    }
}

/// What a call gives back: 0 or the number of the refusal, the numbers afterwards, the values that
/// are written (none, or all that the call has), and the rows of an inventory in rising order.
#[derive(Clone, Debug, PartialEq, Eq)]
pub struct PlainOutcome {
    pub answer: u8,
    pub numbers: Vec<i64>,
    pub values: Vec<i64>,
    pub rows: Vec<[i64; 5]>,
}

pub fn outcome(before: &[i64], call: &PlainCall) -> PlainOutcome {
    if let PlainCall::Lines(lines) = call {
        return entered(before, lines);
    }
    accepted(before, call).unwrap_or_else(|refusal| refused(before, refusal))
}

/// A refused call changes nothing.
fn refused(before: &[i64], refusal: Refusal) -> PlainOutcome {
    let numbers = before.to_vec();
    PlainOutcome { answer: refusal.number(), numbers, values: Vec::new(), rows: Vec::new() }
}

fn accepted(before: &[i64], call: &PlainCall) -> Result<PlainOutcome, Refusal> {
    if *call == PlainCall::Fresh && before.len() == NUMBERS {
        let numbers = numbers(&PointDay::fresh());
        return Ok(PlainOutcome { answer: 0, numbers, values: Vec::new(), rows: Vec::new() });
    }
    let mut day = point_day(before).ok_or(Refusal::OutOfRange)?;
    if let PlainCall::Inventory(room) = call {
        return listed(before, &day, *room);
    }
    let call = document_call(call).ok_or(Refusal::OutOfRange)?;
    let values = match calls::make(&mut day, &call)? {
        Answer::Done => vec![],
        Answer::LossesAdded(losses) => vec![losses as i64],
        Answer::RowsLookedAt(rows) => vec![rows as i64],
        Answer::WithinTolerance(r) => vec![1, r as i64],
        Answer::Revised(r) => vec![0, r as i64],
    };
    Ok(PlainOutcome { answer: 0, numbers: numbers_after(before, &day), values, rows: Vec::new() })
}

/// Line after line until one is refused: its number, and how many were accepted with which losses.
/// Lists of unequal lengths, or a point-day that is not taken: 2, and 0 and 0.
fn entered(before: &[i64], lines: &PlainLines) -> PlainOutcome {
    let (Some(mut day), Some(lines)) = (point_day(before).filter(PointDay::taken), lines.lines())
    else {
        return PlainOutcome { values: vec![0, 0], ..refused(before, Refusal::OutOfRange) };
    };
    let (mut answer, mut accepted, mut losses) = (0, 0, 0);
    for line in &lines {
        match calls::make(&mut day, &Call::Line(line_arguments(line))) {
            Ok(Answer::LossesAdded(added)) => {
                accepted += 1;
                losses += added as i64;
            }
            Ok(other) => panic!("a line answers {other:?}"),
            Err(refusal) => {
                answer = refusal.number();
                break;
            }
        }
    }
    let numbers = numbers_after(before, &day);
    PlainOutcome { answer, numbers, values: vec![accepted, losses], rows: Vec::new() }
}

/// What is stored for a measurement stays while the point-day is not measured.
fn numbers_after(before: &[i64], day: &PointDay) -> Vec<i64> {
    let mut after = numbers(day);
    if day.measurement.is_none() {
        after[EMISSION] = before[EMISSION];
        after[DOWNSTREAM] = before[DOWNSTREAM];
    }
    after
}

/// An inventory's value is the count of rows; all numbers stay.
fn listed(before: &[i64], day: &PointDay, room: usize) -> Result<PlainOutcome, Refusal> {
    let count = inventory::inventory(day, &mut vec![0; room])?;
    let mut rows: Vec<[i64; 5]> =
        inventory::rows(day).into_iter().map(|row| row.map(|number| number as i64)).collect();
    rows.sort();
    Ok(PlainOutcome { answer: 0, numbers: before.to_vec(), values: vec![count as i64], rows })
}

/// The call in document 01's terms, if it is one of its calls on a point-day.
fn document_call(call: &PlainCall) -> Option<Call> {
    Some(match call {
        PlainCall::Fresh | PlainCall::Lines(_) | PlainCall::Inventory(_) => return None,
        PlainCall::Join(user) => Call::Join(*user as i128),
        PlainCall::Line(line) => Call::Line(line_arguments(line)),
        PlainCall::Measure { emission, downstream } => Call::Measure(Measurement {
            emission: *emission as i128,
            downstream: *downstream as i128,
        }),
        PlainCall::Allot => Call::Allot,
        PlainCall::Revise => Call::Revise,
        PlainCall::StartFinal => Call::StartFinal,
        PlainCall::StandIn(rows) => Call::StandIn(rows.rows()),
    })
}

fn line_arguments(line: &PlainLine) -> LineArguments {
    LineArguments {
        user: line.user as i128,
        kind: line.kind as i128,
        consumption: no_further(line.consumption),
        coefficient: no_further(line.coefficient),
    }
}

/// Far outside its range one number is like another, and this one times itself has room.
fn no_further(number: u64) -> i128 {
    (number as i128).min(1_000_000_000_000_000_000)
}

#[cfg(test)]
mod tests {
    use super::*;
    use crate::cases::loaded_days;
    use crate::limits::MAX_ENERGY;

    const ONE: PlainLine = PlainLine { user: 7, kind: 1, consumption: 300, coefficient: 1_000 };

    #[test]
    fn a_point_day_is_read_as_it_was_written() {
        for day in loaded_days::point_days() {
            let read = point_day(&numbers(&day));
            let in_range = day.measurement.is_none_or(|measurement| measurement.in_range());
            assert_eq!(read, in_range.then_some(day));
        }
    }

    #[test]
    fn the_numbers_stand_where_the_layout_has_them() {
        let mut day = PointDay::fresh();
        day.stage = Stage::FinalDefinitive;
        day.measurement = Some(Measurement { emission: 8, downstream: 3 });
        day.count = 2;
        day.slots[1] = Slot {
            number: 9,
            consumption: [0, 0, 0, 0, 11],
            losses: [12, 0, 0, 0, 0],
            balance: [0, -13, 0, 0, 0],
            revision: -14,
        };
        let numbers = numbers(&day);
        assert_eq!((numbers.len(), &numbers[..6]), (1_094, &[2, 0, 1, 8, 3, 2][..]));
        let places = [(7, 9), (79, 11), (395, 12), (716, -13), (1_031, -14)];
        assert!(places.iter().all(|&(place, number)| numbers[place] == number));
        assert_eq!(numbers[6..].iter().filter(|&&number| number != 0).count(), places.len());
    }

    #[test]
    fn numbers_that_no_point_day_holds_are_refused() {
        let fresh = numbers(&PointDay::fresh());
        let changes = [(0, 3), (0, -1), (1, 2), (2, -1), (5, -1), (6, 65_536), (69, -1)];
        for (place, number) in changes {
            let mut changed = fresh.clone();
            changed[place] = number;
            assert_eq!(point_day(&changed), None);
        }
        assert_eq!(point_day(&fresh[1..]), None);
    }

    #[test]
    fn an_unmeasured_emission_is_held_to_its_limits_and_kept() {
        let most = MAX_ENERGY as i64;
        for (emission, downstream, taken) in [
            (5, 0, true),
            (most, most, true),
            (most + 1, 0, false),
            (2_000_000_000, 0, false),
            (-1, 0, false),
            (0, -1, false),
            (5, 6, false),
        ] {
            let mut before = numbers(&PointDay::fresh());
            (before[EMISSION], before[DOWNSTREAM]) = (emission, downstream);
            let joined = outcome(&before, &PlainCall::Join(7));
            assert_eq!(joined.answer, if taken { 0 } else { 2 });
            assert_eq!(joined.numbers[EMISSION..=DOWNSTREAM], [emission, downstream]);
            assert_eq!(joined.numbers != before, taken);
        }
    }

    #[test]
    fn lines_stop_at_the_first_that_is_refused() {
        let before = outcome(&numbers(&PointDay::fresh()), &PlainCall::Join(7)).numbers;
        let lines = [ONE, PlainLine { kind: 3, ..ONE }, PlainLine { user: 8, ..ONE }, ONE];
        let call = PlainCall::Lines(PlainLines::of(&lines));
        let after = outcome(&before, &call);
        assert_eq!((after.answer, after.values), (3, vec![2, 6]));
        assert_eq!(after.numbers[CONSUMPTION_AT..CONSUMPTION_AT + 3], [300, 0, 300]);
    }

    #[test]
    fn lists_of_unequal_lengths_enter_nothing() {
        let before = outcome(&numbers(&PointDay::fresh()), &PlainCall::Join(7)).numbers;
        let mut lines = PlainLines::of(&[ONE, ONE]);
        lines.kinds.pop();
        let after = outcome(&before, &PlainCall::Lines(lines));
        assert_eq!((after.answer, after.values, after.numbers), (2, vec![0, 0], before.clone()));
        let none = outcome(&before, &PlainCall::Lines(PlainLines::default()));
        assert_eq!((none.answer, none.values, none.numbers), (0, vec![0, 0], before));
    }
}
