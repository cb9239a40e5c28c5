//! Point-days in plain numbers for tests, and the calls to make on each: point-days that lists of
//! calls reach, taken ones that none reaches, and ones damaged in every way that document 01's
//! section "The point-day" tells apart.

use std::vec::IntoIter;

use crate::calls::{self, Call, TOLERANCE};
use crate::cases::call_lists::{self, distinct_users, Style};
use crate::cases::{loaded_days, plain_calls};
use crate::limits::{KINDS, MAX_AMOUNT, MAX_ENERGY, MAX_USERS, MAX_USER_NUMBER};
use crate::plain::{self, PlainCall, CELLS, COUNT, NUMBERS, REVISION_AT, USERS_AT};
use crate::point_day::{Measurement, PointDay, Slot, Stage};
use crate::rng::Rng;

/// The numbers that are lent, and the calls, each of which is to find these numbers.
pub struct DamagedDay {
    pub numbers: Vec<i64>,
    pub calls: Vec<PlainCall>,
}

/// The point-days of a seed, without end: first those that `replay` loads, one for every reason.
pub struct DamagedDays {
    loaded: IntoIter<PointDay>,
    rng: Rng,
}

impl DamagedDays {
    pub fn new(seed: u64) -> DamagedDays {
        DamagedDays { loaded: loaded_days::point_days().into_iter(), rng: Rng::new(seed) }
    }
}

impl Iterator for DamagedDays {
    type Item = DamagedDay;

    fn next(&mut self) -> Option<DamagedDay> {
        let rng = &mut self.rng;
        let numbers = match self.loaded.next() {
            Some(day) => plain::numbers(&day),
            None => damaged(rng),
        };
        let calls = plain_calls::every_call(&numbers, rng);
        Some(DamagedDay { numbers, calls })
    }
}

fn damaged(rng: &mut Rng) -> Vec<i64> {
    let mut day = valid_day(rng);
    if rng.one_in(2) {
        bring_to_a_bound(&mut day, rng);
        if rng.one_in(4) {
            bring_to_a_bound(&mut day, rng);
        }
    }
    let mut numbers = plain::numbers(&day);
    if day.measurement.is_none() && rng.one_in(2) {
        store_an_emission(&mut numbers, rng);
    }
    if rng.one_in(3) {
        change_a_number(&mut numbers, rng);
        if rng.one_in(4) {
            change_a_number(&mut numbers, rng);
        }
    }
    if rng.one_in(200) {
        numbers.resize(rng.pick(&[0, 1, COUNT, NUMBERS - 1, NUMBERS + 1, NUMBERS + 64]), 0);
    }
    numbers
}

// ---- Point-days as they should be

fn valid_day(rng: &mut Rng) -> PointDay {
    match rng.below(12) {
        0 | 1 => nobody_joined(rng),
        2..=5 => reached(rng),
        6 | 7 => entered(rng),
        8 => allotted(rng),
        _ => unreachable_allotted(rng),
    }
}

fn nobody_joined(rng: &mut Rng) -> PointDay {
    let mut day = PointDay::fresh();
    if !rng.one_in(8) {
        let net = rng.pick(&[0, TOLERANCE, TOLERANCE + 1, 150, 1_000, 123_456_789, MAX_ENERGY]);
        day.measurement = Some(call_lists::measurement_of(net, rng));
    }
    if rng.one_in(6) {
        day.stage = rng.pick(&Stage::ALL);
    }
    day
}

/// By a random list of calls.
fn reached(rng: &mut Rng) -> PointDay {
    let style = Style::random(rng);
    let length = 1 + rng.below(30);
    let mut day = PointDay::fresh();
    for call in call_lists::random_list(length, &style, rng) {
        let _ = calls::make(&mut day, &call);
    }
    day
}

/// Up to 64 users in no order, of any stage, entering.
fn entered(rng: &mut Rng) -> PointDay {
    let count = rng.pick(&[1, 2, 3, 5, 20, 63, 64, 64]);
    let highest = rng.pick(&[count as i128, 2 * count as i128, MAX_USER_NUMBER]);
    let scale = rng.pick(&[0, 1, 3, 1_000, MAX_ENERGY / (2 * count * KINDS) as i128]);
    let empty = rng.pick(&[1, 2, 4]);
    let mut day = PointDay::fresh();
    for (place, number) in distinct_users(count, highest, rng).into_iter().enumerate() {
        let mut cells =
            || std::array::from_fn(|_| if rng.one_in(empty) { 0 } else { rng.between(0, scale) });
        let (consumption, losses) = (cells(), cells());
        day.slots[place] = Slot { consumption, losses, ..Slot::of_user(number) };
    }
    day.count = count;
    day.stage = rng.pick(&Stage::ALL);
    if !rng.one_in(5) {
        let entered = day.consumption() + day.losses();
        let net = rng.pick(&[0, entered / 2, entered, entered + 101, MAX_ENERGY]);
        day.measurement = Some(call_lists::measurement_of(net, rng));
    }
    day
}

/// Of any stage, half of them provisional, and some of them measured again.
fn allotted(rng: &mut Rng) -> PointDay {
    let mut day = entered(rng);
    let net = rng.between(0, 1_000);
    day.measurement.get_or_insert(Measurement { emission: net, downstream: 0 });
    calls::make(&mut day, &Call::Allot).expect("it has a user and a measurement");
    if rng.one_in(2) {
        day.stage = Stage::Provisional;
    }
    if rng.one_in(2) {
        bring_net_near(&mut day, rng);
    }
    day
}

/// With balances and revisions of both signs that no list of calls gives.
fn unreachable_allotted(rng: &mut Rng) -> PointDay {
    let mut day = allotted(rng);
    let within_users = rng.one_in(2);
    for _ in 0..1 + rng.below(6) {
        let size = rng.pick(&[1, 7, 100, 1_000_000, MAX_ENERGY, MAX_AMOUNT - 1_000]);
        let amount = rng.between(-size, size);
        if within_users {
            move_within_user(&mut day, amount, rng);
        } else {
            move_between(&mut day, amount, rng);
        }
    }
    day
}

/// Adds to a user's balance what it takes from the revision: the whole amount stays.
fn move_within_user(day: &mut PointDay, amount: i128, rng: &mut Rng) {
    let kind = rng.below(KINDS);
    let slot = any_slot(day, rng);
    slot.balance[kind] += amount;
    slot.revision -= amount;
}

/// Adds to one balance or revision what it takes from another, of any user.
fn move_between(day: &mut PointDay, amount: i128, rng: &mut Rng) {
    *balance_or_revision(day, rng) += amount;
    *balance_or_revision(day, rng) -= amount;
}

/// Of a joined user, if there is one.
fn any_slot<'a>(day: &'a mut PointDay, rng: &mut Rng) -> &'a mut Slot {
    let joined = day.count.max(1);
    &mut day.slots[rng.below(joined)]
}

fn balance_or_revision<'a>(day: &'a mut PointDay, rng: &mut Rng) -> &'a mut i128 {
    let slot = any_slot(day, rng);
    match rng.below(KINDS + 2) {
        kind if kind < KINDS => &mut slot.balance[kind],
        _ => &mut slot.revision,
    }
}

/// R at the bounds of the tolerance, or far outside.
fn bring_net_near(day: &mut PointDay, rng: &mut Rng) {
    let far = rng.pick(&[TOLERANCE, TOLERANCE + 1, TOLERANCE - 1, 5_000, MAX_ENERGY]);
    let net = day.whole_amount() + rng.pick(&[-far, far, 0]);
    day.measurement = Some(call_lists::measurement_of(net.clamp(0, MAX_ENERGY), rng));
}

// ---- Figures at a bound, or one past it

fn bring_to_a_bound(day: &mut PointDay, rng: &mut Rng) {
    match rng.below(14) {
        0 => repeat_a_number(day, rng),
        1 => leave_something_past_the_last_user(day, rng),
        2 => set_measurement(day, rng),
        3 => set_sum_of_consumption_and_losses(day, rng),
        4 | 5 => set_balance_or_revision(day, rng),
        6 | 7 => set_whole_amount(day, rng),
        8 | 9 => set_sum_of_whole_amounts(day, rng),
        10 => day.stage = rng.pick(&Stage::ALL),
        11 => day.allotted = !day.allotted,
        12 => any_slot(day, rng).number = rng.pick(&[0, 1, MAX_USER_NUMBER]),
        _ => bring_net_near(day, rng),
    }
}

fn repeat_a_number(day: &mut PointDay, rng: &mut Rng) {
    let number = any_slot(day, rng).number;
    any_slot(day, rng).number = number;
}

fn leave_something_past_the_last_user(day: &mut PointDay, rng: &mut Rng) {
    let amount = rng.pick(&[1, -1, MAX_AMOUNT]);
    let place = rng.pick(&[day.count, day.count + 1, MAX_USERS - 1]).min(MAX_USERS - 1);
    let kind = rng.below(KINDS);
    let slot = &mut day.slots[place];
    match rng.below(5) {
        0 => slot.number = rng.pick(&[1, 77, MAX_USER_NUMBER]),
        1 => slot.consumption[kind] = amount,
        2 => slot.losses[kind] = amount,
        3 => slot.balance[kind] = amount,
        _ => slot.revision = amount,
    }
}

fn set_measurement(day: &mut PointDay, rng: &mut Rng) {
    let emission = rng.pick(&[0, 1, MAX_ENERGY, MAX_ENERGY + 1]);
    let downstream = rng.pick(&[0, emission, emission + 1, MAX_ENERGY, MAX_ENERGY + 1]);
    day.measurement = (!rng.one_in(6)).then_some(Measurement { emission, downstream });
}

/// At −1, 0, 1,000,000,000 or one past, by one cell; the balance makes up for it at times.
fn set_sum_of_consumption_and_losses(day: &mut PointDay, rng: &mut Rng) {
    let wanted = rng.pick(&[MAX_ENERGY, MAX_ENERGY + 1, MAX_ENERGY, 0, -1]);
    let change = wanted - day.consumption() - day.losses();
    let (kind, in_losses) = (rng.below(KINDS), rng.one_in(2));
    let made_up = day.allotted && !rng.one_in(4);
    let slot = any_slot(day, rng);
    let cells = if in_losses { &mut slot.losses } else { &mut slot.consumption };
    cells[kind] += change;
    if made_up {
        slot.balance[kind] -= change;
    }
}

fn set_balance_or_revision(day: &mut PointDay, rng: &mut Rng) {
    let wanted = at_the_bound_of_an_amount(rng);
    let figure = balance_or_revision(day, rng);
    let change = wanted - *figure;
    *figure = wanted;
    make_up_for(day, change, rng);
}

/// Takes an amount from other balances and revisions, so that the sum of whole amounts stays.
fn make_up_for(day: &mut PointDay, amount: i128, rng: &mut Rng) {
    match rng.below(5) {
        0 => {}
        1 => *balance_or_revision(day, rng) -= amount,
        _ => {
            *balance_or_revision(day, rng) -= amount / 2;
            *balance_or_revision(day, rng) -= amount - amount / 2;
        }
    }
}

fn at_the_bound_of_an_amount(rng: &mut Rng) -> i128 {
    let size = rng.pick(&[MAX_AMOUNT, MAX_AMOUNT, MAX_AMOUNT - 1, MAX_AMOUNT + 1]);
    rng.pick(&[size, -size])
}

fn set_whole_amount(day: &mut PointDay, rng: &mut Rng) {
    let wanted = if rng.one_in(4) { rng.pick(&[0, -1]) } else { at_the_bound_of_an_amount(rng) };
    let slot = any_slot(day, rng);
    let change = wanted - slot.whole_amount();
    slot.balance[0] += change / 2;
    slot.revision += change - change / 2;
    make_up_for(day, change, rng);
}

fn set_sum_of_whole_amounts(day: &mut PointDay, rng: &mut Rng) {
    let wanted = rng.pick(&[0, -1, 1, MAX_ENERGY, MAX_ENERGY + 1]);
    let change = wanted - day.whole_amount();
    *balance_or_revision(day, rng) += change;
}

// ---- Numbers changed without regard to what they are

fn change_a_number(numbers: &mut [i64], rng: &mut Rng) {
    let at = place(numbers, rng);
    match rng.below(8) {
        0 => change_the_count(numbers, rng),
        1 => change_the_head(numbers, rng),
        2 => numbers[at] = numbers[(at + 1).min(NUMBERS - 1)],
        3 => numbers[at] = numbers[at].wrapping_add(rng.pick(&[1, -1])),
        4 => numbers[at] = numbers[at].wrapping_neg(),
        5 => {
            let user = USERS_AT + rng.below(MAX_USERS);
            numbers[user] = rng.pick(&[0, -1, 1, 65_535, 65_536, 65_537, i64::MIN, i64::MAX]);
        }
        _ => numbers[at] = extreme(rng),
    }
}

/// Mostly a number of the head, or of one of the first users.
fn place(numbers: &[i64], rng: &mut Rng) -> usize {
    let joined = numbers[COUNT].clamp(1, MAX_USERS as i64) as usize;
    let (user, kind) = (rng.below(joined), rng.below(KINDS));
    match rng.below(8) {
        0 => rng.below(COUNT + 1),
        1 => USERS_AT + user,
        2 => REVISION_AT + user,
        3 => rng.below(NUMBERS),
        table => plain::CONSUMPTION_AT + CELLS * (table % 3) + KINDS * user + kind,
    }
}

fn extreme(rng: &mut Rng) -> i64 {
    let size = rng.pick(&[1, 2, 64, 1 << 31, 1 << 32, i64::MAX]);
    let bound = rng.pick(&[MAX_ENERGY as i64, MAX_AMOUNT as i64]);
    rng.pick(&[0, size, -size, i64::MIN, bound, bound + 1, -bound, -bound - 1])
}

fn change_the_count(numbers: &mut [i64], rng: &mut Rng) {
    let count = numbers[COUNT];
    let past = [64, 65, 66, -1, 1 << 16, 1 << 32, i64::MAX, i64::MIN];
    numbers[COUNT] = match rng.below(4) {
        0 => count.wrapping_add(1),
        1 => count.wrapping_sub(1),
        // As many users, if only the lower bits counted.
        2 => count | rng.pick(&[1 << 8, 1 << 16, 1 << 32, i64::MIN]),
        _ => rng.pick(&past),
    };
}

/// Of a point-day that is not measured: within the limits, or past them.
fn store_an_emission(numbers: &mut [i64], rng: &mut Rng) {
    let most = MAX_ENERGY as i64;
    let emission = rng.pick(&[1, 5, 1_000, most, most, most + 1, 2 * most, -1]);
    numbers[plain::EMISSION] = emission;
    numbers[plain::DOWNSTREAM] = rng.pick(&[0, 0, 1, emission, emission, emission + 1, -1]);
}

fn change_the_head(numbers: &mut [i64], rng: &mut Rng) {
    match rng.below(5) {
        0 => numbers[plain::STAGE] = rng.pick(&[0, 1, 2, 3, -1, 256, 1 << 32, i64::MIN]),
        1 => numbers[plain::ALLOTTED] = rng.pick(&[0, 1, 2, -1, 256, 1 << 32, i64::MIN]),
        2 => numbers[plain::MEASURED] = rng.pick(&[0, 1, 2, -1, 256, 1 << 32, i64::MIN]),
        3 => numbers[plain::EMISSION] = rng.pick(&[0, -1, 1_000_000_001, i64::MIN, i64::MAX]),
        _ => numbers[plain::DOWNSTREAM] = rng.pick(&[-1, 1_000_000_001, i64::MIN, i64::MAX]),
    }
}

#[cfg(test)]
mod tests {
    use std::collections::{BTreeMap, BTreeSet};

    use super::*;

    #[test]
    fn the_calls_meet_every_answer() {
        let mut answers: BTreeMap<(&str, u8), usize> = BTreeMap::new();
        for day in DamagedDays::new(1).take(4_000) {
            for call in &day.calls {
                let answer = plain::outcome(&day.numbers, call).answer;
                *answers.entry((call.name(), answer)).or_insert(0) += 1;
            }
        }
        let all: [(&str, &[u8]); 10] = [
            ("fresh", &[0, 2]),
            ("join", &[0, 1, 2, 4, 5]),
            ("line", &[0, 1, 2, 3, 6]),
            ("lines", &[0, 1, 2, 3, 6]),
            ("measure", &[0, 1, 2]),
            ("allot", &[0, 1, 2, 7, 8]),
            ("revise", &[0, 1, 2, 11]),
            ("start-final", &[0, 1, 2]),
            ("stand-in", &[0, 1, 2, 7, 9, 10, 11]),
            ("inventory", &[0, 1, 2, 14]),
        ];
        let wanted: BTreeSet<(&str, u8)> = all
            .iter()
            .flat_map(|&(name, numbers)| numbers.iter().map(move |&number| (name, number)))
            .collect();
        assert_eq!(answers.keys().copied().collect::<BTreeSet<_>>(), wanted);
        assert!(answers.values().all(|&count| count >= 10), "{answers:?}");
    }

    #[test]
    fn some_are_taken_and_some_are_not() {
        let (mut taken, mut untaken, mut no_point_day) = (0, 0, 0);
        for day in DamagedDays::new(1).take(4_000) {
            match plain::point_day(&day.numbers) {
                Some(day) if day.taken() => taken += 1,
                Some(_) => untaken += 1,
                None => no_point_day += 1,
            }
        }
        let counts = (taken, untaken, no_point_day);
        assert!(taken > 1_200 && untaken > 1_000 && no_point_day > 100, "{counts:?}");
    }
}
