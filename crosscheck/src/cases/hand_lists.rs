//! Lists of calls for `replay`, each about one matter.

use super::recorder::Recorder;
use crate::calls::{Call, LineArguments, Row, MAX_COEFFICIENT, STAND_IN_ROWS, TOLERANCE};
use crate::limits::{KINDS, MAX_AMOUNT, MAX_ENERGY, MAX_USERS};
use crate::point_day::Measurement;

const HUGE: i128 = u64::MAX as i128;

pub fn line(user: i128, kind: i128, consumption: i128, coefficient: i128) -> Call {
    Call::Line(LineArguments { user, kind, consumption, coefficient })
}

pub fn edit(user: i128, kind: i128, consumption: i128, coefficient: i128) -> Call {
    Call::Edit(LineArguments { user, kind, consumption, coefficient })
}

pub fn measure(emission: i128, downstream: i128) -> Call {
    Call::Measure(Measurement { emission, downstream })
}

/// A stand-in with the given row after `empty` empty ones.
pub fn stand_in(empty: usize, row: &[(i128, i128)]) -> Call {
    let mut rows = vec![Row::new(); STAND_IN_ROWS];
    rows[empty] = row.to_vec();
    Call::StandIn(rows)
}

pub fn all(out: &mut Recorder) {
    example_e(out);
    tolerance(out);
    every_call_at_every_stage(out);
    joins(out);
    lines(out);
    point_day_sum(out);
    measures(out);
    allot_weights(out);
    negative_balance(out);
    ties(out);
    revisions(out);
    stand_ins(out);
    stand_in_refusals(out);
}

/// The lists of calls alone.
pub fn lists() -> Vec<Vec<Call>> {
    let mut recorder = Recorder::new(false);
    all(&mut recorder);
    recorder.lists()
}

/// File E's calls (P1), as lines by value or as edits.
fn enter_e(out: &mut Recorder, line: fn(i128, i128, i128, i128) -> Call) {
    out.fresh();
    out.calls([
        measure(1000, 100),
        Call::Join(7),
        line(7, 1, 300, 1000),
        line(7, 3, 200, 0),
        Call::Join(9),
        line(9, 5, 150, 2000),
        Call::Join(12),
        line(12, 2, 50, 0),
    ]);
}

/// P1, P3, P8.
fn example_e(out: &mut Recorder) {
    for form in [line, edit] {
        enter_e(out, form);
        out.show();
        out.call(Call::Allot);
        out.show();
        out.calls([measure(1100, 100), Call::Revise]);
        out.show();
        out.calls([measure(1101, 100), Call::Revise]);
        out.show();
    }
    out.fresh();
    out.calls([measure(100, 0), Call::Join(1), Call::Join(2)]);
    out.calls([line(1, 1, 60, 0), edit(2, 1, 39, 0), Call::Allot]);
    out.show();
}

/// Net beside what is allotted by each of these, once and again.
fn tolerance(out: &mut Recorder) {
    for r in [-102, -101, -100, -99, -1, 0, 1, 99, 100, 101, 102] {
        enter_e(out, line);
        out.calls([Call::Allot, measure(900 + r, 0), Call::Revise]);
        out.show();
        out.calls([Call::Revise, measure(900 - r, 0), Call::Revise]);
        out.show();
    }
}

/// One of each call that a stage may or may not take.
fn each_call() -> Vec<Call> {
    vec![
        Call::StandIn(vec![Row::new(); STAND_IN_ROWS]),
        stand_in(0, &[(0, 0)]),
        Call::Join(0),
        Call::Join(7),
        line(7, 0, HUGE, 0),
        line(8, 1, 1, 0),
        edit(8, 1, 1, 0),
        line(7, 2, MAX_ENERGY, MAX_COEFFICIENT),
        measure(1, 2),
        Call::Revise,
        Call::StartFinal,
        Call::Allot,
        Call::Allot,
        Call::Join(8),
        line(7, 2, 1, 0),
        edit(7, 2, 1, 0),
        measure(HUGE, HUGE),
        measure(2_000, 1_000),
        Call::StandIn(vec![Row::new(); STAND_IN_ROWS]),
        Call::Revise,
    ]
}

fn every_call_at_every_stage(out: &mut Recorder) {
    out.fresh();
    out.calls(each_call());
    enter_e(out, edit);
    for _stage in 0..3 {
        out.calls(each_call());
        out.show();
        out.calls(each_call());
        out.show();
        out.calls([Call::Revise, Call::StartFinal]);
        out.show();
        out.calls([Call::Join(3), line(3, 4, 70, 500), edit(12, 1, 30, 10), line(9, 5, 7, 0)]);
    }
}

/// Refusals 2, 4 and 5 of join, and the order between them.
fn joins(out: &mut Recorder) {
    out.fresh();
    out.calls([Call::Join(0), Call::Join(1), Call::Join(1), Call::Join(65_535), Call::Join(2)]);
    out.show();
    out.fresh();
    for i in 0..MAX_USERS as i128 {
        out.call(Call::Join((i * 7_919) % 65_521 + 1));
    }
    out.calls([Call::Join(9), Call::Join(0), Call::Join(1), Call::Join(7_920), Call::Join(65_535)]);
    out.calls([line(1, 1, 3, 0), line(7_920, 2, 3, 0), line(7_920, 5, 4, 0), measure(129, 0)]);
    out.call(Call::Allot);
    out.show();
    out.calls([measure(229, 0), Call::Revise, measure(1_000, 0), Call::Revise, Call::StartFinal]);
    out.calls([Call::Join(2), Call::Join(1), Call::Allot]);
    out.show();
}

/// Ranges of a line, rounding of its losses, and a user that has not joined.
fn lines(out: &mut Recorder) {
    for form in [line, edit] {
        out.fresh();
        out.call(form(1, 1, 0, 0));
        out.calls([Call::Join(65_535), Call::Join(1)]);
        for user in [0, 1, 2, 65_534, 65_535] {
            out.call(form(user, 1, 10, 5_000));
        }
        for kind in [0, 1, 5, 6, 255] {
            out.call(form(1, kind, 1, 0));
        }
        for consumption in [0, 4, 5, 6, 15, 94, 95, 1_000_001, MAX_ENERGY + 1, 1 << 32, HUGE] {
            out.call(form(1, 2, consumption, MAX_COEFFICIENT));
        }
        for coefficient in [0, 1, 9_999, MAX_COEFFICIENT, MAX_COEFFICIENT + 1, u32::MAX as i128] {
            out.call(form(65_535, 3, 50_000, coefficient));
        }
        out.calls([form(2, 6, 1, 0), form(2, 5, MAX_ENERGY, 0), form(1, 5, MAX_ENERGY, 10_001)]);
        out.show();
    }
}

/// Refusal 6: consumption and losses together at and past 1,000,000,000.
fn point_day_sum(out: &mut Recorder) {
    for form in [line, edit] {
        out.fresh();
        out.calls([Call::Join(4), Call::Join(3)]);
        out.calls([form(4, 1, MAX_ENERGY, 1), form(4, 1, MAX_ENERGY, 0), form(3, 5, 0, 10_000)]);
        out.calls([form(3, 5, 1, 0), form(3, 5, 4, 10_000)]);
        out.show();
        out.fresh();
        out.calls([Call::Join(4), Call::Join(3), form(4, 2, 909_090_909, MAX_COEFFICIENT)]);
        out.calls([form(3, 3, 1, 0), form(3, 4, 0, 0)]);
        out.show();
        out.fresh();
        out.calls([Call::Join(4), Call::Join(3), form(4, 2, 909_090_900, MAX_COEFFICIENT)]);
        out.calls([
            form(3, 3, 10, 5_000),
            form(3, 3, 10, 4_000),
            form(3, 4, 0, 0),
            form(3, 4, 1, 0),
        ]);
        out.show();
        out.calls([measure(MAX_ENERGY, 0), Call::Allot]);
        out.show();
    }
}

fn measures(out: &mut Recorder) {
    out.fresh();
    let bounds = [0, 1, MAX_ENERGY, MAX_ENERGY + 1, 1 << 32, 1 << 63, HUGE];
    for emission in bounds {
        for downstream in bounds {
            out.call(measure(emission, downstream));
            if emission <= MAX_ENERGY {
                out.show();
            }
        }
    }
    for (emission, downstream) in [(10, 9), (10, 10), (10, 11), (MAX_ENERGY, MAX_ENERGY)] {
        out.call(measure(emission, downstream));
        out.show();
    }
}

/// The weights of an allot: kinds 2 to 5, all kinds, none.
fn allot_weights(out: &mut Recorder) {
    out.fresh();
    out.calls([Call::Allot, Call::Join(6), Call::Allot, measure(5, 0), Call::Allot]);
    out.show();
    out.fresh();
    out.calls([measure(5, 0), Call::Allot]);
    for (net, lines) in [
        // Nobody consumes: equal shares, all on kind 1.
        (11, vec![]),
        // Kind 1 only: all kinds count.
        (1_000, vec![(9, 1, 30), (4, 1, 60), (6, 1, 9)]),
        (11, vec![(9, 1, 30)]),
        // 1 kWh of another kind takes the whole balance.
        (1_000, vec![(9, 1, 300), (4, 2, 1)]),
        (500, vec![(9, 5, 1), (9, 2, 1), (4, 3, 1), (4, 4, 1), (4, 1, 77)]),
        (100, vec![(9, 5, 3), (9, 4, 3), (9, 2, 3), (6, 3, 7), (4, 1, 5)]),
    ] {
        out.fresh();
        out.calls([Call::Join(9), Call::Join(4), Call::Join(6), measure(net, 0)]);
        for (user, kind, consumption) in lines {
            out.call(line(user, kind, consumption, 2_500));
        }
        out.call(Call::Allot);
        out.show();
        out.calls([measure(2 * net + 300, net), Call::Revise]);
        out.show();
    }
}

/// More consumed than measured: shares below zero, and whole amounts that are negative.
fn negative_balance(out: &mut Recorder) {
    for net in [0, 1, 7, 33] {
        out.fresh();
        out.calls([Call::Join(30), Call::Join(20), Call::Join(10), measure(net, 0)]);
        out.calls([
            line(30, 5, 10, 0),
            line(30, 2, 10, 0),
            line(20, 3, 20, 0),
            edit(10, 4, 5, 9_999),
        ]);
        out.calls([line(10, 1, 4, 0), Call::Allot]);
        out.show();
        out.calls([measure(net + 100, 0), Call::Revise, measure(net + 101, 0), Call::Revise]);
        out.show();
    }
    // The user with kind 2 bears the whole balance: a negative whole amount, refusal 11 outside
    // the tolerance only.
    out.fresh();
    out.calls([Call::Join(2), Call::Join(1), line(2, 1, 1_000, 0), line(1, 2, 1, 0)]);
    out.calls([measure(300, 0), Call::Allot]);
    out.show();
    for net in [199, 200, 300, 400, 401, MAX_ENERGY, 0] {
        out.calls([measure(net, 0), Call::Revise]);
        out.show();
    }
    out.calls([Call::StartFinal, Call::Allot]);
    out.show();
}

/// Equal remainders between users joined out of order, and between kinds.
fn ties(out: &mut Recorder) {
    for extra in [-5, -4, -3, -2, -1, 1, 2, 3, 4, 5] {
        out.fresh();
        for user in [500, 3, 65_535, 40, 7] {
            out.calls([Call::Join(user), line(user, user % 4 + 2, 20, 0)]);
        }
        out.calls([measure(100 + extra, 0), Call::Allot]);
        out.show();
        out.calls([measure(100 + 203 * extra.abs(), 0), Call::Revise]);
        out.show();
    }
    for extra in [-6, -3, -1, 1, 2, 3, 6] {
        out.fresh();
        out.call(Call::Join(8));
        for kind in (1..=KINDS as i128).rev() {
            out.call(line(8, kind, 4, 0));
        }
        out.calls([measure(20 + extra, 0), Call::Allot]);
        out.show();
    }
}

/// Revise from nothing allotted, down to nothing and up to the limit.
fn revisions(out: &mut Recorder) {
    out.fresh();
    out.calls([
        Call::Join(3),
        Call::Join(2),
        Call::Join(1),
        measure(0, 0),
        Call::Allot,
        Call::Revise,
    ]);
    out.calls([measure(1_001, 0), Call::Revise]);
    out.show();
    out.calls([measure(0, 0), Call::Revise]);
    out.show();
    out.calls([measure(MAX_ENERGY, 0), Call::Revise]);
    out.show();
    out.calls([measure(MAX_ENERGY, MAX_ENERGY), Call::Revise, measure(500, 3), Call::Revise]);
    out.show();
    out.calls([Call::StartFinal, Call::Revise, Call::Allot, measure(1, 0), Call::Revise]);
    out.show();
    out.calls([Call::StartFinal, measure(800, 0), Call::Allot, Call::Revise, Call::StartFinal]);
    out.show();
}

/// P9 and other stand-ins, and what may follow one.
fn stand_ins(out: &mut Recorder) {
    let cases: [(i128, usize, Row); 9] = [
        (201, 2, vec![(5, 0), (6, 0)]),
        (101, 0, vec![(65_535, 0)]),
        (101, 14, vec![(1, MAX_AMOUNT), (2, MAX_AMOUNT), (3, MAX_AMOUNT)]),
        (MAX_ENERGY, 3, vec![(1, MAX_AMOUNT), (2, MAX_AMOUNT - 1), (65_535, 1)]),
        (MAX_ENERGY, 0, vec![(7, 1), (8, 0), (9, 1)]),
        (1_000, 13, vec![(2, 3), (4, 3), (6, 3), (8, 3), (10, 3), (12, 3), (14, 3)]),
        (1_003, 1, vec![(2, 0), (4, 5), (6, 0)]),
        (500, 7, (1..=MAX_USERS as i128).map(|user| (user, user % 3)).collect()),
        (MAX_ENERGY, 5, (1..=MAX_USERS as i128).map(|user| (user * 1_000, MAX_AMOUNT)).collect()),
    ];
    for (net, empty, row) in cases {
        out.fresh();
        out.calls([measure(net, 0), stand_in(empty, &row)]);
        out.show();
        out.calls([stand_in(0, &row[..1]), Call::Join(77), measure(net + 100, 200), Call::Revise]);
        out.calls([measure(net, 0), Call::Revise, measure(net / 2, 0), Call::Revise]);
        if row.len() < 10 {
            out.show();
        }
        out.calls([Call::StartFinal, stand_in(0, &row[..1]), Call::Allot]);
    }
}

/// Refusals 1, 2, 7, 9, 10 and 11 at their bounds, and the order between them.
fn stand_in_refusals(out: &mut Recorder) {
    let good: &[(i128, i128)] = &[(5, 1), (6, 2)];
    let none = Call::StandIn(vec![Row::new(); STAND_IN_ROWS]);
    let bad_rows: Vec<Vec<(i128, i128)>> = vec![
        vec![(0, 1)],
        vec![(6, 1), (5, 1)],
        vec![(5, 1), (5, 1)],
        vec![(5, MAX_AMOUNT + 1)],
        vec![(5, -MAX_AMOUNT - 1)],
        vec![(5, i64::MAX as i128)],
        vec![(5, i64::MIN as i128), (6, 1)],
    ];
    let too_many: Vec<(i128, i128)> = (1..=MAX_USERS as i128 + 1).map(|user| (user, 1)).collect();
    let with_later = |later: &[(i128, i128)], at: usize| {
        let mut rows = vec![Row::new(); STAND_IN_ROWS];
        rows[0] = good.to_vec();
        rows[at] = later.to_vec();
        Call::StandIn(rows)
    };

    // Unmeasured: 2, then 7.
    out.fresh();
    out.calls([
        stand_in(0, good),
        none.clone(),
        stand_in(0, &[(5, -1)]),
        stand_in(0, &bad_rows[0]),
    ]);
    out.call(stand_in(0, &too_many));
    // Net 100: 2, then 9; net 101: 10 and 11.
    for net in [0, TOLERANCE, TOLERANCE + 1] {
        out.call(measure(net, 0));
        for row in &bad_rows {
            out.calls([stand_in(0, row), with_later(row, 14)]);
        }
        out.calls([
            none.clone(),
            stand_in(4, &[(5, -1), (6, 3)]),
            stand_in(0, &[(5, -MAX_AMOUNT)]),
        ]);
        out.calls([with_later(&[(5, 2), (5, 2)], 1), stand_in(14, &[(5, 1), (6, -1)])]);
        out.show();
    }
    out.calls([stand_in(0, &too_many), with_later(&too_many, 14)]);
    // A later row's negative amounts do no harm.
    out.call(with_later(&[(5, -MAX_AMOUNT), (6, MAX_AMOUNT)], 1));
    out.show();
    out.calls([stand_in(0, good), stand_in(0, &bad_rows[0]), none.clone()]);
    // A user joined: 1 before all else.
    out.fresh();
    out.calls([Call::Join(5), stand_in(0, good), stand_in(0, &bad_rows[0]), none.clone()]);
    out.calls([measure(500, 0), stand_in(0, good), none]);
    out.show();
}
