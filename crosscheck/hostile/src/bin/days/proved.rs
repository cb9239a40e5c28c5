//! The proved library, on lent memory.

use crosscheck::plain::PlainCall;
use seatpomelo::raw;

/// What a call is lent: the point-day, the lists of lines or of a stand-in's rows, a buffer for an
/// inventory, and two numbers for values. Those that a call has no use for are empty.
pub struct Lent<'a> {
    pub day: &'a mut [i64],
    pub users: &'a [u16],
    pub kinds: &'a [u8],
    pub consumptions: &'a [u64],
    pub coefficients: &'a [u64],
    pub counts: &'a [usize],
    pub amounts: &'a [i64],
    pub out: &'a mut [i64],
    pub first: &'a mut u64,
    pub second: &'a mut u64,
    pub amount: &'a mut i64,
}

/// The call on the point-day: 0, or document 01's number of the refusal. Any numbers will do: the
/// call tests them itself.
pub fn call(lent: &mut Lent, call: &PlainCall) -> u8 {
    let day = &mut *lent.day;
    match call {
        PlainCall::Fresh => raw::fresh(day),
        PlainCall::Join(user) => raw::join(day, *user),
        PlainCall::Line(line) => {
            raw::line(day, line.user, line.kind, line.consumption, line.coefficient, lent.first)
        }
        PlainCall::Lines(_) => raw::lines(
            day,
            lent.users,
            lent.kinds,
            lent.consumptions,
            lent.coefficients,
            lent.first,
            lent.second,
        ),
        PlainCall::Measure { emission, downstream } => raw::measure(day, *emission, *downstream),
        PlainCall::Allot => raw::allot(day),
        PlainCall::Revise => raw::revise(day, lent.first, lent.amount),
        PlainCall::StartFinal => raw::start_final(day),
        PlainCall::StandIn(_) => {
            raw::stand_in(day, lent.counts, lent.users, lent.amounts, lent.first)
        }
        PlainCall::Inventory(_) => raw::inventory(day, lent.out, lent.first),
    }
}
