//! Point-days that `replay` loads as they are: taken ones that no list of calls from fresh
//! reaches, and ones that are not taken, each for one reason at its bound.

use super::hand_lists::{edit, line, measure, stand_in};
use super::recorder::Recorder;
use crate::calls::Call;
use crate::limits::{KINDS, MAX_AMOUNT, MAX_ENERGY, MAX_USERS};
use crate::point_day::{Measurement, PointDay, Slot, Stage};

const LEAST: i128 = i64::MIN as i128;
const GREATEST: i128 = i64::MAX as i128;

/// Taken ones, then one that is not taken for every reason.
pub fn all(out: &mut Recorder) {
    taken(out);
    for (_, day) in untaken() {
        out.load(&day);
        out.show();
        one_of_each_call(out);
        out.inventory(3);
    }
}

fn taken(out: &mut Recorder) {
    revised_out_of_range(out);
    negative_whole_amounts(out);
    cells_at_their_bounds(out);
    final_entering_unmeasured(out);
    final_allotted_far_from_net(out);
    full_and_unsorted(out);
}

/// All of them: the taken ones and those that the calls on them reach, then the others.
pub fn point_days() -> Vec<PointDay> {
    let mut recorder = Recorder::new(true);
    taken(&mut recorder);
    recorder.point_days().into_iter().chain(untaken().into_iter().map(|(_, day)| day)).collect()
}

fn one_of_each_call(out: &mut Recorder) {
    out.calls([Call::Join(9), Call::Join(0), line(7, 1, 1, 0), edit(7, 1, 1, 0), edit(7, 9, 1, 0)]);
    out.calls([
        measure(10, 0),
        Call::Allot,
        stand_in(0, &[(1, 1)]),
        Call::Revise,
        Call::StartFinal,
    ]);
}

fn slot(
    number: i128,
    consumption: [i128; 5],
    losses: [i128; 5],
    balance: [i128; 5],
    revision: i128,
) -> Slot {
    Slot { number, consumption, losses, balance, revision }
}

fn day(stage: Stage, allotted: bool, net: Option<i128>, users: Vec<Slot>) -> PointDay {
    let mut slots = users;
    let count = slots.len();
    slots.resize(MAX_USERS, Slot::default());
    let measurement = net.map(|net| Measurement { emission: net, downstream: 0 });
    PointDay { stage, allotted, measurement, count, slots }
}

/// Two users joined out of order, with consumption and losses.
fn entering() -> PointDay {
    let users = vec![
        slot(7, [3, 0, 0, 0, 2], [1, 0, 0, 0, 0], [0; 5], 0),
        slot(2, [0, 9, 0, 0, 0], [0, 1, 0, 0, 0], [0; 5], 0),
    ];
    day(Stage::Provisional, false, Some(50), users)
}

/// The same, allotted and revised.
fn allotted() -> PointDay {
    let users = vec![
        slot(7, [3, 0, 0, 0, 2], [1, 0, 0, 0, 0], [0, 0, 0, 0, 6], 50),
        slot(2, [0, 9, 0, 0, 0], [0, 1, 0, 0, 0], [0, 28, 0, 0, 0], 0),
    ];
    day(Stage::Provisional, true, Some(50), users)
}

/// A point-day that is not taken, with the reason.
type Untaken = (&'static str, PointDay);

fn changed(mut day: PointDay, change: &dyn Fn(&mut PointDay)) -> PointDay {
    change(&mut day);
    day
}

fn untaken() -> Vec<Untaken> {
    let mut list: Vec<Untaken> = Vec::new();
    let mut add = |reason, base: PointDay, change: &dyn Fn(&mut PointDay)| {
        list.push((reason, changed(base, change)));
    };

    add("65 users", full_of_users(), &|day| day.count = MAX_USERS + 1);
    add("a number 0", entering(), &|day| day.slots[0].number = 0);
    add("consumption past the last user", entering(), &|day| day.slots[2].consumption[0] = 1);
    add("balance past the last user", allotted(), &|day| day.slots[63].balance[4] = LEAST);
    add("revision past the last user", allotted(), &|day| day.slots[63].revision = 1);
    add("emission 1,000,000,001", entering(), &|day| {
        let emission = MAX_ENERGY + 1;
        day.measurement = Some(Measurement { emission, downstream: emission });
    });
    add("losses −1", allotted(), &|day| {
        day.slots[0].losses[1] = -1;
        day.slots[0].balance[1] = 1;
    });
    add("consumption and losses 1,000,000,001", allotted(), &|day| {
        day.slots[1].consumption[1] += MAX_ENERGY - 15;
        day.slots[1].balance[1] = -100;
    });
    add("balance 2,000,000,001", allotted(), &|day| {
        day.slots[1].balance[2] = MAX_AMOUNT + 1;
        day.slots[1].revision = -MAX_AMOUNT;
    });
    add("balance −2,000,000,001", allotted(), &|day| {
        day.slots[1].balance[0] = -MAX_AMOUNT - 1;
        day.slots[1].balance[4] = MAX_AMOUNT;
    });
    add("revision 2,000,000,001", allotted(), &|day| {
        day.slots[1].revision = MAX_AMOUNT + 1;
        day.slots[1].balance[3] = -MAX_AMOUNT;
    });
    add("revision −2,000,000,001", allotted(), &|day| {
        day.slots[0].revision = -MAX_AMOUNT - 1;
        day.slots[0].balance[3] = MAX_AMOUNT;
    });
    add("balance while entering", entering(), &|day| {
        day.slots[0].balance = [1, -1, 0, 0, 0];
    });
    add("revision while entering", entering(), &|day| {
        day.slots[0].revision = 1;
        day.slots[1].revision = -1;
    });
    add("whole amount 2,000,000,001", allotted(), &|day| {
        day.slots[0].balance[0] = MAX_AMOUNT + 1 - 62;
        day.slots[1].balance[0] = -MAX_AMOUNT;
    });
    add("whole amount −2,000,000,001", allotted(), &|day| {
        day.slots[0].balance[0] = -MAX_AMOUNT;
        day.slots[0].revision = -13;
        day.slots[1].balance[0] = MAX_AMOUNT - 38;
        day.slots[2] = slot(5, [0; 5], [0; 5], [0; 5], 1);
        day.count = 3;
    });
    add("allotted without user", day(Stage::FinalProvisional, true, Some(5), vec![]), &|_| {});
    add("the greatest balance and the least revision", allotted(), &|day| {
        day.slots[0].balance = [GREATEST, 1, 0, 0, 0];
        day.slots[0].revision = LEAST;
    });
    add("the greatest consumption in every cell", entering(), &|day| {
        day.slots[0].consumption = [GREATEST; 5];
        day.slots[1].losses = [GREATEST; 5];
    });
    add("a number twice", entering(), &|day| day.slots[1].number = 7);
    add("a number past the last user", entering(), &|day| day.slots[63].number = 1);
    add("losses past the last user", entering(), &|day| day.slots[2].losses[4] = 1);
    add("downstream above emission", entering(), &|day| {
        day.measurement = Some(Measurement { emission: 5, downstream: 6 });
    });
    add("consumption −1", allotted(), &|day| {
        day.slots[0].consumption[2] = -1;
        day.slots[0].balance[2] = 1;
    });
    add("whole amounts −1 together", allotted(), &|day| day.slots[0].revision = -51);
    add("whole amounts 1,000,000,001 together", allotted(), &|day| {
        day.slots[0].revision = MAX_ENERGY + 1 - 50;
    });
    add("allotted without measurement", allotted(), &|day| day.measurement = None);
    list
}

fn full_of_users() -> PointDay {
    let users = (0..MAX_USERS as i128).map(|i| Slot::of_user(i * 5_003 % 65_519 + 1)).collect();
    day(Stage::Provisional, false, Some(50), users)
}

/// Revise adds to a revision at its bound: the call is accepted, the point-day no longer taken.
fn revised_out_of_range(out: &mut Recorder) {
    let users = vec![slot(4, [0; 5], [0; 5], [MAX_AMOUNT, MAX_ENERGY, 0, 0, 0], -MAX_AMOUNT)];
    out.load(&day(Stage::Provisional, true, Some(0), users));
    out.show();
    out.calls([measure(MAX_ENERGY, 0), Call::Revise, measure(0, 0), Call::Revise]);
    out.show();
    one_of_each_call(out);
}

/// Whole amounts of −2,000,000,000 and 2,000,000,000: refusal 11 outside the tolerance only.
fn negative_whole_amounts(out: &mut Recorder) {
    let users = vec![
        slot(9, [0; 5], [0; 5], [0, 0, 0, 0, 0], -MAX_AMOUNT),
        slot(3, [5; 5], [1; 5], [MAX_AMOUNT - 30, 0, 0, 0, 0], 0),
        slot(6, [0; 5], [0; 5], [0, -7, 0, 0, 7], 0),
    ];
    out.load(&day(Stage::Provisional, true, Some(101), users));
    out.show();
    out.calls([Call::Join(1), line(3, 1, 1, 0), edit(3, 1, 1, 0), Call::Allot, Call::Revise]);
    out.calls([measure(200, 100), Call::Revise, measure(0, 0), Call::Revise]);
    out.calls([measure(MAX_ENERGY, 0), Call::Revise]);
    out.show();
    out.inventory(35);
    out.inventory(34);
    out.calls([Call::StartFinal, Call::Allot]);
    out.show();
}

/// Balance, revision and sums all at their bounds, none negative as a whole: revise down to 0.
fn cells_at_their_bounds(out: &mut Recorder) {
    let users = vec![
        slot(65_535, [MAX_ENERGY / 2, 0, 0, 0, 0], [0; 5], [-MAX_AMOUNT, MAX_AMOUNT, 0, 0, 0], 0),
        slot(1, [0; 5], [0, 0, 0, 0, MAX_ENERGY / 2], [0, 0, -MAX_AMOUNT, 0, 0], MAX_AMOUNT),
        slot(2, [0; 5], [0; 5], [0, 0, 0, MAX_AMOUNT, 0], -MAX_AMOUNT),
    ];
    out.load(&day(Stage::Provisional, true, Some(MAX_ENERGY), users));
    out.show();
    out.calls([Call::Revise, measure(3, 0), Call::Revise]);
    out.show();
    out.calls([measure(MAX_ENERGY - 1, 0), Call::Revise, Call::StartFinal]);
    out.show();
}

/// A final stage, entering, without a measurement and without a user.
fn final_entering_unmeasured(out: &mut Recorder) {
    out.load(&day(Stage::FinalDefinitive, false, None, vec![]));
    out.show();
    let good = stand_in(0, &[(1, 1)]);
    out.calls([Call::Allot, good.clone(), Call::Revise, Call::StartFinal]);
    out.calls([measure(500, 2), good, Call::Allot, Call::Join(50), Call::Join(10)]);
    out.calls([line(10, 3, 5, 9_000), line(50, 3, 10, 0), measure(63, 2), Call::Join(10)]);
    out.call(Call::Allot);
    out.show();
    out.calls([measure(1, 1), Call::StartFinal, Call::Revise]);
}

/// A final stage, allotted, with revisions and far from its net.
fn final_allotted_far_from_net(out: &mut Recorder) {
    let users = vec![
        slot(8, [1, 2, 3, 4, 5], [5, 4, 3, 2, 1], [-9, 0, 0, 0, 1_000], -300),
        slot(5, [0; 5], [0; 5], [0; 5], 70_000),
    ];
    out.load(&day(Stage::FinalProvisional, true, Some(12), users));
    out.show();
    out.calls([Call::Revise, measure(5, 0), Call::Allot, Call::Join(1), line(8, 1, 1, 0)]);
    out.call(Call::StartFinal);
    out.show();
    out.calls([edit(5, 5, 2, 0), edit(8, 5, 2, 0), Call::Allot]);
    out.show();
}

/// 64 users in no order, each with all five kinds, 1,000,000,000 together: 320 inventory rows.
fn full_and_unsorted(out: &mut Recorder) {
    let mut full = full_of_users();
    for (i, slot) in full.slots.iter_mut().enumerate() {
        for kind in 0..KINDS {
            let losses = ((i + kind) % 4) as i128;
            slot.consumption[kind] = MAX_ENERGY / 320 - losses;
            slot.losses[kind] = losses;
        }
    }
    full.measurement = None;
    out.load(&full);
    let (first, second) = (full.slots[0].number, full.slots[1].number);
    out.calls([
        Call::Join(first),
        Call::Join(65_535),
        line(second, 1, 1, 0),
        edit(second, 1, 0, 0),
    ]);
    out.calls([edit(9, 1, 0, 0), Call::Allot, measure(MAX_ENERGY, 101), Call::Allot]);
    out.show();
    out.calls([measure(MAX_ENERGY, 0), Call::Revise]);
    out.show();
    out.inventory(1_599);
    out.inventory(1_600);
}

#[cfg(test)]
mod tests {
    use super::*;

    #[test]
    fn the_base_point_days_are_taken() {
        assert!(entering().taken() && allotted().taken() && full_of_users().taken());
    }

    #[test]
    fn none_of_the_others_is_taken() {
        for (reason, day) in untaken() {
            assert!(!day.taken(), "{reason}");
        }
    }

    #[test]
    fn one_step_back_from_the_bound_they_are_taken() {
        let mut sum_zero = allotted();
        sum_zero.slots[0].revision = -50;
        let mut sum_at_limit = allotted();
        sum_at_limit.slots[0].revision = MAX_ENERGY - 50;
        assert_eq!((sum_zero.whole_amount(), sum_at_limit.whole_amount()), (0, MAX_ENERGY));
        assert!(sum_zero.taken() && sum_at_limit.taken());
    }
}
