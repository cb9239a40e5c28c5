//! The proved library, as a Rust program calls it on its own numbers.

use seatpomelo::raw;

use crate::cases::{Call, Numbers, Values};

/// The call on a point-day in plain numbers: 0, or document 01's number of the refusal. Any numbers will do: the call tests them itself.
/// The rows of an inventory go to `out`.
pub fn call(day: &mut Numbers, call: &Call, values: &mut Values, out: &mut [i64]) -> u8 {
    match call {
        Call::Fresh => raw::fresh(day),
        Call::Join(user) => raw::join(day, *user),
        Call::Line(line) => raw::line(
            day,
            line.user,
            line.kind,
            line.consumption,
            line.coefficient,
            &mut values.first,
        ),
        Call::Lines(lists) => raw::lines(
            day,
            &lists.users,
            &lists.kinds,
            &lists.consumptions,
            &lists.coefficients,
            &mut values.first,
            &mut values.second,
        ),
        Call::Measure(emission, downstream) => raw::measure(day, *emission, *downstream),
        Call::Allot => raw::allot(day),
        Call::Revise => raw::revise(day, &mut values.first, &mut values.amount),
        Call::StartFinal => raw::start_final(day),
        Call::StandIn(rows) => raw::stand_in(
            day,
            &rows.counts,
            &rows.users,
            &rows.amounts,
            &mut values.first,
        ),
        Call::Inventory => raw::inventory(day, out, &mut values.first),
    }
}
