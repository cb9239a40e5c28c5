//! The calls on a point-day in plain numbers, with arguments in their ranges, at the bounds and past
//! them.

use super::call_lists::{self, distinct_users, Style};
use crate::calls::{Row, MAX_COEFFICIENT, STAND_IN_ROWS, TOLERANCE};
use crate::inventory;
use crate::limits::{KINDS, MAX_AMOUNT, MAX_ENERGY, MAX_USERS, MAX_USER_NUMBER};
use crate::plain::{self, PlainCall, PlainLine, PlainLines, PlainRows, CELLS};
use crate::point_day::PointDay;
use crate::rng::Rng;

/// What the arguments of the calls are drawn around.
struct Around {
    users: Vec<u16>,
    /// The consumption and losses that still fit.
    room: i128,
    /// Everything allotted.
    settled: i128,
    /// The rows of the inventory.
    rows: usize,
}

impl Around {
    fn of(numbers: &[i64]) -> Around {
        let day = plain::point_day(numbers).filter(|day| day.count <= MAX_USERS);
        let day = day.unwrap_or_else(PointDay::fresh);
        Around {
            users: day.users().iter().map(|slot| slot.number as u16).collect(),
            room: (MAX_ENERGY - day.consumption() - day.losses()).clamp(0, MAX_ENERGY),
            settled: day.whole_amount().clamp(0, MAX_ENERGY),
            rows: inventory::rows(&day).len(),
        }
    }
}

/// Every call on these numbers, most of them more than once.
pub fn every_call(numbers: &[i64], rng: &mut Rng) -> Vec<PlainCall> {
    let around = &Around::of(numbers);
    vec![
        PlainCall::Fresh,
        PlainCall::Join(user(around, rng)),
        PlainCall::Join(rng.next_u64() as u16),
        PlainCall::Line(line(around, rng)),
        PlainCall::Line(line(around, rng)),
        PlainCall::Lines(lines(around, rng)),
        PlainCall::Lines(lines(around, rng)),
        measure(around, rng),
        measure(around, rng),
        PlainCall::Allot,
        PlainCall::Revise,
        PlainCall::StartFinal,
        PlainCall::StandIn(stand_in_rows(rng)),
        PlainCall::StandIn(stand_in_rows(rng)),
        inventory_call(around, rng),
        inventory_call(around, rng),
    ]
}

fn user(around: &Around, rng: &mut Rng) -> u16 {
    if around.users.is_empty() || rng.one_in(6) {
        rng.pick(&[0, 1, 2, 65_535])
    } else {
        rng.pick(&around.users)
    }
}

fn line(around: &Around, rng: &mut Rng) -> PlainLine {
    let most = MAX_COEFFICIENT as u64;
    let mut coefficient = rng.pick(&[0, 1, most, most, most / 2, 1_234]);
    // Consumption and losses together just fit, or just do not.
    let fits = around.room * 100_000 / (100_000 + coefficient as i128);
    let mut consumption = match rng.below(6) {
        0 => rng.pick(&[0, 1, 49_999, 50_000]),
        1 | 2 => (fits + rng.between(-1, 1)).max(0) as u64,
        3 => MAX_ENERGY as u64,
        _ => rng.between(0, around.room) as u64 / rng.pick(&[1, 10, 100_000]),
    };
    let mut kind = 1 + rng.below(KINDS) as u8;
    if rng.one_in(5) {
        match rng.below(4) {
            0 => kind = rng.pick(&[0, 6, 255]),
            1 => consumption = rng.pick(&[MAX_ENERGY as u64 + 1, 1 << 63, u64::MAX]),
            2 => coefficient = rng.pick(&[most + 1, 1 << 32, u64::MAX]),
            _ => (consumption, coefficient) = (u64::MAX, u64::MAX),
        }
    }
    PlainLine { user: user(around, rng), kind, consumption, coefficient }
}

/// Lists of lines: mostly such as fit together, often with any line somewhere among them; at times of
/// unequal lengths.
fn lines(around: &Around, rng: &mut Rng) -> PlainLines {
    let count = rng.pick(&[0, 1, 2, 3, 8, 20]);
    let mut lines: Vec<PlainLine> = (0..count).map(|_| small_line(around, count, rng)).collect();
    if count > 0 && rng.one_in(2) {
        lines[rng.below(count)] = line(around, rng);
    }
    let mut lists = PlainLines::of(&lines);
    if rng.one_in(8) {
        let length = rng.pick(&[0, count.saturating_sub(1), count + 1]);
        match rng.below(4) {
            0 => lists.users.resize(length, 1),
            1 => lists.kinds.resize(length, 1),
            2 => lists.consumptions.resize(length, 0),
            _ => lists.coefficients.resize(length, 0),
        }
    }
    lists
}

/// One of a few that fit together.
fn small_line(around: &Around, count: usize, rng: &mut Rng) -> PlainLine {
    let user = if around.users.is_empty() { 1 } else { rng.pick(&around.users) };
    let most = around.room / (2 * count as i128);
    PlainLine {
        user,
        kind: 1 + rng.below(KINDS) as u8,
        consumption: rng.between(0, most) as u64,
        coefficient: rng.between(0, MAX_COEFFICIENT) as u64,
    }
}

fn measure(around: &Around, rng: &mut Rng) -> PlainCall {
    let most = MAX_ENERGY as u64;
    let net = rng.pick(&[0, 1, TOLERANCE, around.settled, around.settled + TOLERANCE, MAX_ENERGY]);
    let measurement = call_lists::measurement_of(net.min(MAX_ENERGY), rng);
    let (mut emission, mut downstream) =
        (measurement.emission as u64, measurement.downstream as u64);
    match rng.below(10) {
        0 => emission = rng.pick(&[most + 1, 1 << 63, u64::MAX]),
        1 => downstream = rng.pick(&[emission, emission + 1, most + 1, 1 << 63, u64::MAX]),
        2 => (emission, downstream) = rng.pick(&[(most, most), (most + 1, most + 1), (0, 1)]),
        _ => {}
    }
    PlainCall::Measure { emission, downstream }
}

fn inventory_call(around: &Around, rng: &mut Rng) -> PlainCall {
    let needed = 5 * around.rows;
    PlainCall::Inventory(match rng.below(6) {
        0 | 1 => needed,
        2 => needed.saturating_sub(1),
        3 => needed + 1,
        4 => rng.pick(&[0, 1, 5 * CELLS, 5 * CELLS + 1]),
        _ => rng.below(5 * CELLS + 2),
    })
}

fn stand_in_rows(rng: &mut Rng) -> PlainRows {
    let style = Style::random(rng);
    let mut rows = call_lists::rows(&style, rng);
    if rng.one_in(8) {
        rows[rng.below(STAND_IN_ROWS)] = full_row(rng);
    }
    if rng.one_in(6) {
        make_an_amount_negative(&mut rows, rng);
    }
    let unused = rng.pick(&[(0, 0), (0, 0), (7, 1), (65_535, i64::MIN), (1, -1)]);
    let mut plain = PlainRows::of(&rows, unused);
    if rng.one_in(25) {
        let at = rng.below(STAND_IN_ROWS);
        plain.counts[at] = rng.pick(&[65, 960, 1 << 16, 1 << 32, usize::MAX]);
    }
    if rng.one_in(60) {
        match rng.below(3) {
            0 => plain.counts.resize(rng.pick(&[0, 14, 16]), 0),
            1 => plain.users.resize(rng.pick(&[0, 959, 961]), 0),
            _ => plain.amounts.resize(rng.pick(&[0, 959, 961]), 0),
        }
    }
    plain
}

/// In the row that is used, or in one that is not.
fn make_an_amount_negative(rows: &mut [Row], rng: &mut Rng) {
    let mut filled: Vec<&mut Row> = rows.iter_mut().filter(|row| !row.is_empty()).collect();
    if !filled.is_empty() {
        let row = rng.below(filled.len());
        let pair = rng.below(filled[row].len());
        filled[row][pair].1 = rng.pick(&[-1, -1, -MAX_AMOUNT, -MAX_AMOUNT - 1]);
    }
}

/// 64 pairs, at times with the last amount negative or one too large.
fn full_row(rng: &mut Rng) -> Row {
    let mut users = distinct_users(MAX_USERS, rng.pick(&[64, 99, MAX_USER_NUMBER]), rng);
    users.sort();
    let highest = rng.pick(&[0, 1, 1_000, MAX_AMOUNT]);
    let mut row: Row = users.into_iter().map(|user| (user, rng.between(0, highest))).collect();
    row[MAX_USERS - 1].1 = rng.pick(&[0, MAX_AMOUNT, MAX_AMOUNT, -1, -MAX_AMOUNT, MAX_AMOUNT + 1]);
    row
}
