//! Random lists of calls from a fresh point-day, for `replay` and for the day book.

use crate::calls::{self, Call, LineArguments, Row, MAX_COEFFICIENT, STAND_IN_ROWS, TOLERANCE};
use crate::limits::{KINDS, MAX_AMOUNT, MAX_ENERGY, MAX_USERS};
use crate::point_day::{Measurement, PointDay, Stage};
use crate::rng::Rng;

/// What the calls of one list have in common.
pub struct Style {
    /// The users that the list speaks of, in no order.
    users: Vec<i128>,
    /// The greatest consumption of a line that is not at a bound.
    scale: i128,
    /// One call in so many is drawn without regard to the point-day's stage.
    stray: usize,
}

impl Style {
    pub fn random(rng: &mut Rng) -> Style {
        let count = rng.pick(&[1, 2, 2, 3, 3, 4, 5, 7]);
        Style::of(count, rng)
    }

    pub fn of(count: usize, rng: &mut Rng) -> Style {
        let highest = rng.pick(&[9, 99, 65_535]).max(count as i128);
        let scale = rng.pick(&[1, 3, 20, 1_000, 1_000_000, MAX_ENERGY / 3]);
        let stray = rng.pick(&[4, 10, 30]);
        Style { users: distinct_users(count, highest, rng), scale, stray }
    }
}

pub fn distinct_users(count: usize, highest: i128, rng: &mut Rng) -> Vec<i128> {
    let mut users: Vec<i128> = Vec::new();
    while users.len() < count {
        let user = rng.between(1, highest);
        if !users.contains(&user) {
            users.push(user);
        }
    }
    users
}

/// A list of calls from fresh.
pub fn random_list(length: usize, style: &Style, rng: &mut Rng) -> Vec<Call> {
    let mut day = PointDay::fresh();
    let mut list = Vec::new();
    for _ in 0..length {
        let call = next_call(&day, style, rng);
        let _ = calls::make(&mut day, &call);
        list.push(call);
    }
    list
}

fn next_call(day: &PointDay, style: &Style, rng: &mut Rng) -> Call {
    if rng.one_in(style.stray) {
        return any_call(day, style, rng);
    }
    match (day.stage, day.allotted) {
        (Stage::Provisional, true) => match rng.below(7) {
            0..=2 => near_settled(day, rng),
            3..=5 => Call::Revise,
            _ => Call::StartFinal,
        },
        (_, true) => Call::StartFinal,
        (Stage::Provisional, false) if day.count == 0 && rng.one_in(3) => {
            if day.measurement.is_some() {
                Call::StandIn(rows(style, rng))
            } else {
                measure(day, style, rng)
            }
        }
        (_, false) if day.count < style.users.len() && rng.one_in(4) => join(style, rng),
        (_, false) => match rng.below(12) {
            0 | 1 => measure(day, style, rng),
            2 => Call::Allot,
            3 => join(style, rng),
            _ => line(day, style, rng),
        },
    }
}

fn any_call(day: &PointDay, style: &Style, rng: &mut Rng) -> Call {
    match rng.below(8) {
        0 => join(style, rng),
        1 | 2 => line(day, style, rng),
        3 => measure(day, style, rng),
        4 => Call::Allot,
        5 => Call::StandIn(rows(style, rng)),
        6 => Call::Revise,
        _ => Call::StartFinal,
    }
}

fn join(style: &Style, rng: &mut Rng) -> Call {
    Call::Join(if rng.one_in(20) { rng.pick(&[0, 1, 65_535]) } else { rng.pick(&style.users) })
}

fn line(day: &PointDay, style: &Style, rng: &mut Rng) -> Call {
    let room = MAX_ENERGY - day.consumption() - day.losses();
    let mut arguments = LineArguments {
        user: rng.pick(&style.users),
        kind: rng.between(1, KINDS as i128),
        consumption: match rng.below(16) {
            0 => 0,
            1 => room.max(0),
            2 => room + 1,
            _ => rng.between(0, style.scale),
        },
        coefficient: match rng.below(4) {
            0 => 0,
            1 => MAX_COEFFICIENT,
            _ => rng.between(0, MAX_COEFFICIENT),
        },
    };
    if rng.one_in(15) {
        match rng.below(5) {
            0 => arguments.user = rng.pick(&[0, 1, 65_535]),
            1 => arguments.kind = rng.pick(&[0, 6, 255]),
            2 => arguments.consumption = rng.pick(&[MAX_ENERGY + 1, u64::MAX as i128]),
            3 => arguments.coefficient = rng.pick(&[MAX_COEFFICIENT + 1, u32::MAX as i128]),
            _ => arguments.consumption = MAX_ENERGY,
        }
    }
    if rng.one_in(3) {
        Call::Edit(arguments)
    } else {
        Call::Line(arguments)
    }
}

/// A measurement whose net is `net`, if there is one in range.
pub fn measurement_of(net: i128, rng: &mut Rng) -> Measurement {
    let downstream = match rng.below(3) {
        0 => 0,
        1 => rng.between(0, 1_000),
        _ => rng.between(0, MAX_ENERGY),
    };
    let downstream = downstream.min(MAX_ENERGY - net.clamp(0, MAX_ENERGY));
    Measurement { emission: (net + downstream).max(0), downstream }
}

fn measure(day: &PointDay, style: &Style, rng: &mut Rng) -> Call {
    let entered = day.consumption() + day.losses();
    let net = match rng.below(10) {
        0 => 0,
        1 => rng.pick(&[TOLERANCE, TOLERANCE + 1]),
        2 => rng.between(0, MAX_ENERGY),
        3 => MAX_ENERGY,
        4 | 5 => rng.between(0, 4 * style.scale),
        _ => (entered + rng.between(-20, 20)).max(0),
    };
    let mut measurement = measurement_of(net, rng);
    if rng.one_in(15) {
        match rng.below(3) {
            0 => measurement.emission = MAX_ENERGY + 1,
            1 => measurement.downstream = measurement.emission + 1,
            _ => measurement.emission = u64::MAX as i128,
        }
    }
    Call::Measure(measurement)
}

/// A measurement at the bounds of the tolerance, or far from what is allotted.
fn near_settled(day: &PointDay, rng: &mut Rng) -> Call {
    let allotted = day.whole_amount();
    let r = match rng.below(8) {
        0 => rng.between(-1_000, 1_000),
        1 => -allotted,
        2 => rng.between(0, MAX_ENERGY) - allotted,
        _ => rng.pick(&[-TOLERANCE - 1, -TOLERANCE, 0, TOLERANCE, TOLERANCE + 1]),
    };
    Call::Measure(measurement_of((allotted + r).max(0), rng))
}

/// Fifteen rows, most of them empty.
pub fn rows(style: &Style, rng: &mut Rng) -> Vec<Row> {
    let mut rows = vec![Row::new(); STAND_IN_ROWS];
    if rng.one_in(10) {
        return rows;
    }
    let used = rng.pick(&[0, 0, 1, 2, 7, 13, 14]);
    rows[used] = row(style, rng);
    if used < STAND_IN_ROWS - 1 && rng.one_in(2) {
        rows[used + 1] = row(style, rng);
    }
    if rng.one_in(4) {
        let at = used + rng.below(STAND_IN_ROWS - used);
        spoil(&mut rows[at], rng);
    }
    rows
}

fn row(style: &Style, rng: &mut Rng) -> Row {
    let mut users = style.users.clone();
    users.sort();
    users.truncate(1 + rng.below(users.len().min(8)));
    let sort = rng.below(6);
    let amount = |rng: &mut Rng| match sort {
        0 => 0,
        1 => 7,
        2 => rng.between(0, 3),
        3 => rng.between(0, MAX_AMOUNT),
        4 => rng.pick(&[MAX_AMOUNT, MAX_AMOUNT - 1]),
        _ => rng.between(-style.scale, 10 * style.scale).clamp(-MAX_AMOUNT, MAX_AMOUNT),
    };
    users.into_iter().map(|user| (user, amount(rng))).collect()
}

/// One fault of a row.
fn spoil(row: &mut Row, rng: &mut Rng) {
    match rng.below(5) {
        0 => row.insert(0, (0, 1)),
        1 => row.push(row.last().copied().unwrap_or((0, 0))),
        2 => row.extend([(9, 1), (8, 1)]),
        3 => *row = vec![(5, rng.pick(&[MAX_AMOUNT + 1, -MAX_AMOUNT - 1, i64::MIN as i128]))],
        _ if rng.one_in(8) => {
            let last = MAX_USERS as i128 + 1;
            *row = (1..=last).map(|user| (user, 1)).collect();
        }
        _ => row.push((3, -MAX_AMOUNT - 1)),
    }
}
