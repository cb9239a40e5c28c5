//! Document 01, "The point-day": the seven calls.
//!
//! Each gives the answer and the point-day afterwards, or the refusal; a refused call changes
//! nothing.

use crate::limits::{KINDS, MAX_AMOUNT, MAX_ENERGY, MAX_USERS};
use crate::point_day::{is_user_number, sum, within, Measurement, PointDay, Slot, Stage};
use crate::proration::{prorate, Party};
use crate::refusal::{Refusal, Refusals};
use crate::rounding::nearest;

/// Loss coefficients: 0 to 10,000 in parts of 100,000.
pub const MAX_COEFFICIENT: i128 = 10_000;
const COEFFICIENT_PARTS: i128 = 100_000;

/// Revise changes nothing if R lies in −100 to 100; a stand-in's net must be above 100.
pub const TOLERANCE: i128 = 100;

pub const STAND_IN_ROWS: usize = 15;

/// One row of a stand-in: pairs of user number and amount.
pub type Row = Vec<(i128, i128)>;

/// A call with its arguments.
#[derive(Clone, Debug, PartialEq, Eq)]
pub enum Call {
    Join(i128),
    Line(LineArguments),
    /// The line call as an edit of a point-day that the caller lends.
    Edit(LineArguments),
    Measure(Measurement),
    Allot,
    StandIn(Vec<Row>),
    Revise,
    StartFinal,
}

#[derive(Clone, Debug, PartialEq, Eq)]
pub struct LineArguments {
    pub user: i128,
    pub kind: i128,
    pub consumption: i128,
    pub coefficient: i128,
}

/// What an accepted call answers.
#[derive(Clone, Debug, PartialEq, Eq)]
pub enum Answer {
    Done,
    LossesAdded(i128),
    RowsLookedAt(usize),
    Revised(i128),
    WithinTolerance(i128),
}

type Outcome = Result<(Answer, PointDay), Refusal>;

/// Makes the call on a point-day that the caller keeps.
pub fn make(day: &mut PointDay, call: &Call) -> Result<Answer, Refusal> {
    let (answer, after) = outcome(day, call)?;
    *day = after;
    Ok(answer)
}

fn outcome(day: &PointDay, call: &Call) -> Outcome {
    if !day.taken() {
        return Err(Refusal::OutOfRange);
    }
    match call {
        Call::Join(user) => join(day, *user),
        Call::Line(arguments) | Call::Edit(arguments) => line(day, arguments),
        Call::Measure(measurement) => measure(day, measurement),
        Call::Allot => allot(day),
        Call::StandIn(rows) => stand_in(day, rows),
        Call::Revise => revise(day),
        Call::StartFinal => start_final(day),
    }
}

/// Join (entering): adds a user.
fn join(day: &PointDay, user: i128) -> Outcome {
    let mut refusals = Refusals::new();
    refusals.when(day.allotted, Refusal::WrongStage);
    refusals.when(!is_user_number(user), Refusal::OutOfRange);
    refusals.when(day.slot_of(user).is_some(), Refusal::AlreadyJoined);
    refusals.when(day.count == MAX_USERS, Refusal::AllJoined);
    refusals.decide()?;
    let mut after = day.clone();
    after.slots[after.count] = Slot::of_user(user);
    after.count += 1;
    Ok((Answer::Done, after))
}

/// Line (entering): adds the consumption and its losses.
fn line(day: &PointDay, arguments: &LineArguments) -> Outcome {
    let LineArguments { user, kind, consumption, coefficient } = *arguments;
    // "as losses the nearest of consumption × coefficient / 100,000"
    let losses = nearest(consumption * coefficient, COEFFICIENT_PARTS);
    let together = day.consumption() + day.losses() + consumption + losses;
    let slot = day.slot_of(user);

    let mut refusals = Refusals::new();
    refusals.when(day.allotted, Refusal::WrongStage);
    refusals.when(!is_user_number(user), Refusal::OutOfRange);
    refusals.when(!(1..=KINDS as i128).contains(&kind), Refusal::OutOfRange);
    refusals.when(!(0..=MAX_ENERGY).contains(&consumption), Refusal::OutOfRange);
    refusals.when(!(0..=MAX_COEFFICIENT).contains(&coefficient), Refusal::OutOfRange);
    refusals.when(slot.is_none(), Refusal::NotJoined);
    refusals.when(together > MAX_ENERGY, Refusal::TooLarge);
    refusals.decide()?;

    let mut after = day.clone();
    let kind = kind as usize - 1;
    let slot = &mut after.slots[slot.unwrap()];
    slot.consumption[kind] += consumption;
    slot.losses[kind] += losses;
    Ok((Answer::LossesAdded(losses), after))
}

/// Measure (entering; provisional allotted): "the latest counts".
fn measure(day: &PointDay, measurement: &Measurement) -> Outcome {
    let mut refusals = Refusals::new();
    refusals.when(day.allotted && day.stage != Stage::Provisional, Refusal::WrongStage);
    refusals.when(!measurement.in_range(), Refusal::OutOfRange);
    refusals.decide()?;
    Ok((Answer::Done, PointDay { measurement: Some(*measurement), ..day.clone() }))
}

/// Allot (entering): prorates the balance over users, then each share over the user's kinds.
fn allot(day: &PointDay) -> Outcome {
    let mut refusals = Refusals::new();
    refusals.when(day.allotted, Refusal::WrongStage);
    refusals.when(day.measurement.is_none(), Refusal::Unmeasured);
    refusals.when(day.count == 0, Refusal::NoUser);
    refusals.decide()?;

    let balance = day.net().unwrap() - day.consumption() - day.losses();
    let weights = allot_weights(day.users());
    let shares = prorate_over_users(balance, day.users(), |i, _| sum(&weights[i]));
    let mut after = day.clone();
    for (i, slot) in after.users_mut().iter_mut().enumerate() {
        slot.balance = prorate_over_kinds(shares[i], &weights[i]);
    }
    after.allotted = true;
    whole_amounts_bounded(&after)?;
    Ok((Answer::Done, after))
}

/// Each user's weights by kind: consumption plus losses of kinds 2 to 5; "if these are zero for
/// all users, of all kinds".
fn allot_weights(users: &[Slot]) -> Vec<[i128; KINDS]> {
    let of_all_kinds: Vec<[i128; KINDS]> = users
        .iter()
        .map(|slot| std::array::from_fn(|kind| slot.consumption[kind] + slot.losses[kind]))
        .collect();
    let of_kinds_2_to_5: Vec<[i128; KINDS]> = of_all_kinds
        .iter()
        .map(|weights| std::array::from_fn(|kind| if kind == 0 { 0 } else { weights[kind] }))
        .collect();
    if of_kinds_2_to_5.iter().all(|weights| sum(weights) == 0) {
        of_all_kinds
    } else {
        of_kinds_2_to_5
    }
}

fn prorate_over_users(
    amount: i128,
    users: &[Slot],
    weight: impl Fn(usize, &Slot) -> i128,
) -> Vec<i128> {
    let parties: Vec<Party> = users
        .iter()
        .enumerate()
        .map(|(i, slot)| Party { weight: weight(i, slot), key: slot.number })
        .collect();
    prorate(amount, &parties)
}

/// "with the same weights; if those are all zero, kind 1's proportion is the whole"
fn prorate_over_kinds(share: i128, weights: &[i128; KINDS]) -> [i128; KINDS] {
    if sum(weights) == 0 {
        return [share, 0, 0, 0, 0];
    }
    let parties: Vec<Party> =
        (0..KINDS).map(|kind| Party { weight: weights[kind], key: kind as i128 + 1 }).collect();
    prorate(share, &parties).try_into().unwrap()
}

/// Refusal 12.
fn whole_amounts_bounded(after: &PointDay) -> Result<(), Refusal> {
    if after.users().iter().all(|slot| within(slot.whole_amount(), MAX_AMOUNT)) {
        Ok(())
    } else {
        Err(Refusal::WholeAmount)
    }
}

/// Stand-in (provisional entering, no user joined): shares net by an earlier day's amounts.
fn stand_in(day: &PointDay, rows: &[Row]) -> Outcome {
    // "The nearest row with any pair is used."
    let used = rows.iter().position(|row| !row.is_empty());
    let negative = used.is_some_and(|i| rows[i].iter().any(|&(_, amount)| amount < 0));

    let mut refusals = Refusals::new();
    refusals.when(day.stage != Stage::Provisional || day.allotted, Refusal::WrongStage);
    refusals.when(day.count > 0, Refusal::WrongStage);
    refusals.when(rows.len() != STAND_IN_ROWS, Refusal::OutOfRange);
    refusals.when(!rows.iter().all(row_in_range), Refusal::OutOfRange);
    refusals.when(day.measurement.is_none(), Refusal::Unmeasured);
    refusals.when(day.net().is_some_and(|net| net <= TOLERANCE), Refusal::NetTooSmall);
    refusals.when(used.is_none(), Refusal::NoPair);
    refusals.when(negative, Refusal::NegativeWeight);
    refusals.decide()?;

    // "Its users join, and net is prorated over them by those amounts, as revision."
    let used = used.unwrap();
    let row = &rows[used];
    let mut after = day.clone();
    for (i, &(user, _)) in row.iter().enumerate() {
        after.slots[i] = Slot::of_user(user);
    }
    after.count = row.len();
    let shares = prorate_over_users(day.net().unwrap(), after.users(), |i, _| row[i].1);
    for (slot, share) in after.users_mut().iter_mut().zip(shares) {
        slot.revision = share;
    }
    after.allotted = true;
    whole_amounts_bounded(&after)?;
    Ok((Answer::RowsLookedAt(used + 1), after))
}

/// "each 0 to 64 pairs of user number (rising) and amount (−2,000,000,000 to 2,000,000,000)"
fn row_in_range(row: &Row) -> bool {
    row.len() <= MAX_USERS
        && row.windows(2).all(|pairs| pairs[0].0 < pairs[1].0)
        && row.iter().all(|&(user, amount)| is_user_number(user) && within(amount, MAX_AMOUNT))
}

/// Revise (provisional allotted).
fn revise(day: &PointDay) -> Outcome {
    if day.stage != Stage::Provisional || !day.allotted {
        return Err(Refusal::WrongStage);
    }
    // "R = net − everything allotted."
    let r = day.net().unwrap() - day.whole_amount();
    if within(r, TOLERANCE) {
        return Ok((Answer::WithinTolerance(r), day.clone()));
    }
    if day.users().iter().any(|slot| slot.whole_amount() < 0) {
        return Err(Refusal::NegativeWeight);
    }
    // "R is prorated by each user's whole amount, added to the revisions and returned."
    let shares = prorate_over_users(r, day.users(), |_, slot| slot.whole_amount());
    let mut after = day.clone();
    for (slot, share) in after.users_mut().iter_mut().zip(shares) {
        slot.revision += share;
    }
    whole_amounts_bounded(&after)?;
    Ok((Answer::Revised(r), after))
}

/// Start-final (provisional or final provisional allotted): "next stage, entering. Users and
/// measurement stay; all else is zero."
fn start_final(day: &PointDay) -> Outcome {
    let next = match day.stage.next() {
        Some(next) if day.allotted => next,
        _ => return Err(Refusal::WrongStage),
    };
    let mut after = PointDay { stage: next, allotted: false, ..day.clone() };
    for slot in after.users_mut() {
        *slot = Slot::of_user(slot.number);
    }
    Ok((Answer::Done, after))
}
