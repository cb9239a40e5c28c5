//! The same calls in plain Rust, in place: every condition of a taken point-day tested on the numbers, then the call's own, then the numbers
//! that change written. Written from document 01, not from the product's code.

use std::cmp::Reverse;

use crate::cases::{Call, LineLists, Numbers, Rows, Values, CELLS, KINDS, USERS};

const LIMIT: i64 = 1_000_000_000;
const AMOUNT: i64 = 2_000_000_000;
const TOLERANCE: i64 = 100;

const STAGE: usize = 0;
const ALLOTTED: usize = 1;
const MEASURED: usize = 2;
const EMISSION: usize = 3;
const DOWNSTREAM: usize = 4;
const COUNT: usize = 5;
const USERS_AT: usize = 6;
const CONSUMPTION_AT: usize = USERS_AT + USERS;
const LOSSES_AT: usize = CONSUMPTION_AT + CELLS;
const BALANCE_AT: usize = LOSSES_AT + CELLS;
const REVISION_AT: usize = BALANCE_AT + CELLS;

const PROVISIONAL: i64 = 0;
const FINAL_DEFINITIVE: i64 = 2;

type Refusal = u8;

/// What the test of a point-day finds.
struct Found {
    count: usize,
    users: [u16; USERS],
    /// All consumption and losses.
    offtake: i64,
    /// The users' whole amounts.
    wholes: [i64; USERS],
}

/// The call on a point-day in plain numbers: 0, or the number of the refusal, which writes nothing.
/// The rows of an inventory go to `out`.
pub fn call(day: &mut Numbers, call: &Call, values: &mut Values, out: &mut [i64]) -> u8 {
    match run(day, call, values, out) {
        Ok(()) => 0,
        Err(refusal) => refusal,
    }
}

fn run(
    day: &mut Numbers,
    call: &Call,
    values: &mut Values,
    out: &mut [i64],
) -> Result<(), Refusal> {
    if let Call::Fresh = call {
        day.fill(0);
        return Ok(());
    }
    if let Call::Lines(_) = call {
        (values.first, values.second) = (0, 0);
    }
    let found = taken(day).ok_or(2)?;
    match call {
        Call::Fresh => Ok(()),
        Call::Join(user) => join(day, &found, *user),
        Call::Line(line) => {
            let line = (line.user, line.kind, line.consumption, line.coefficient);
            let mut offtake = found.offtake;
            let users = &found.users[..found.count];
            values.first = enter(day, |user| place_of(users, user), &mut offtake, line)?;
            Ok(())
        }
        Call::Lines(lists) => lines(day, &found, lists, values),
        Call::Measure(emission, downstream) => measure(day, *emission, *downstream),
        Call::Allot => allot(day, &found),
        Call::Revise => revise(day, &found, values),
        Call::StartFinal => start_final(day),
        Call::StandIn(rows) => stand_in(day, &found, rows, values),
        Call::Inventory => inventory(day, &found, values, out),
    }
}

// ---- taken

fn is_flag(number: i64) -> bool {
    number == 0 || number == 1
}

fn all_between(amounts: &[i64], low: i64, high: i64) -> bool {
    amounts.iter().all(|x| (low..=high).contains(x))
}

fn all_zero(amounts: &[i64]) -> bool {
    amounts.iter().fold(0, |any, x| any | x) == 0
}

fn taken(day: &Numbers) -> Option<Found> {
    let count = usize::try_from(day[COUNT]).ok().filter(|&n| n <= USERS)?;
    let (emission, downstream) = (day[EMISSION], day[DOWNSTREAM]);
    let right = (0..=FINAL_DEFINITIVE).contains(&day[STAGE])
        && is_flag(day[ALLOTTED])
        && is_flag(day[MEASURED])
        && (0..=LIMIT).contains(&emission)
        && (0..=emission).contains(&downstream)
        && (day[ALLOTTED] == 0 || count > 0 && day[MEASURED] == 1)
        && all_zero(&day[USERS_AT + count..CONSUMPTION_AT])
        && all_zero(&day[CONSUMPTION_AT + KINDS * count..LOSSES_AT])
        && all_zero(&day[LOSSES_AT + KINDS * count..BALANCE_AT])
        && all_zero(&day[BALANCE_AT + KINDS * count..REVISION_AT])
        && all_zero(&day[REVISION_AT + count..]);
    if !right {
        return None;
    }
    let users = user_numbers(day, count)?;
    let (offtake, wholes) = figures(day, count)?;
    Some(Found {
        count,
        users,
        offtake,
        wholes,
    })
}

/// The users' numbers, if none is out of range or there twice: only one whose bucket is taken is searched among those before it.
fn user_numbers(day: &Numbers, count: usize) -> Option<[u16; USERS]> {
    let mut users = [0; USERS];
    let mut marked = [false; 1024];
    for i in 0..count {
        let user = u16::try_from(day[USERS_AT + i])
            .ok()
            .filter(|&user| user != 0)?;
        let bucket = usize::from(user % 1024);
        if marked[bucket] && users[..i].contains(&user) {
            return None;
        }
        marked[bucket] = true;
        users[i] = user;
    }
    Some(users)
}

/// All consumption and losses, and the whole amounts, if figures and sums are in range.
fn figures(day: &Numbers, count: usize) -> Option<(i64, [i64; USERS])> {
    let mut wholes = [0; USERS];
    let offtake = offtakes(day, &mut wholes[..count])?;
    if day[ALLOTTED] == 0 {
        return all_zero(&day[BALANCE_AT..]).then_some((offtake, wholes));
    }
    let everything = balances(day, &mut wholes[..count])?;
    (0..=LIMIT)
        .contains(&everything)
        .then_some((offtake, wholes))
}

fn cells_of(day: &Numbers, at: usize, user: usize) -> &[i64] {
    &day[at + KINDS * user..at + KINDS * (user + 1)]
}

/// Consumption and losses of each user, and of all. No bit from 2^31 on in any of them: then nothing overflows, and a sum at or below the
/// limit has no part above it.
fn offtakes(day: &Numbers, wholes: &mut [i64]) -> Option<i64> {
    let (mut bits, mut sum) = (0, 0_i64);
    for (user, whole) in wholes.iter_mut().enumerate() {
        let consumption = cells_of(day, CONSUMPTION_AT, user);
        let losses = cells_of(day, LOSSES_AT, user);
        let mut own = 0_i64;
        for (c, l) in consumption.iter().zip(losses) {
            bits |= c | l;
            own = own.wrapping_add(*c).wrapping_add(*l);
        }
        *whole = own;
        sum = sum.wrapping_add(own);
    }
    (bits as u64 >> 31 == 0 && sum <= LIMIT).then_some(sum)
}

/// Balances and revision added to each whole amount, and the sum of these; a number that is too large in size has a sign in one of two
/// differences.
fn balances(day: &Numbers, wholes: &mut [i64]) -> Option<i64> {
    let (mut signs, mut sum) = (0, 0_i64);
    let sign = |x: i64| AMOUNT.wrapping_sub(x) | AMOUNT.wrapping_add(x);
    for (user, whole) in wholes.iter_mut().enumerate() {
        let revision = day[REVISION_AT + user];
        let mut own = whole.wrapping_add(revision);
        signs |= sign(revision);
        for b in cells_of(day, BALANCE_AT, user) {
            signs |= sign(*b);
            own = own.wrapping_add(*b);
        }
        signs |= sign(own);
        *whole = own;
        sum = sum.wrapping_add(own);
    }
    (signs >= 0).then_some(sum)
}

fn net(day: &Numbers) -> Option<i64> {
    (day[MEASURED] == 1).then(|| day[EMISSION] - day[DOWNSTREAM])
}

/// Refusal 12.
fn bounded(mut wholes: impl Iterator<Item = i64>) -> Result<(), Refusal> {
    if wholes.all(|whole| whole.abs() <= AMOUNT) {
        Ok(())
    } else {
        Err(12)
    }
}

// ---- the calls

fn join(day: &mut Numbers, found: &Found, user: u16) -> Result<(), Refusal> {
    if day[ALLOTTED] == 1 {
        return Err(1);
    }
    if user == 0 {
        return Err(2);
    }
    if found.users[..found.count].contains(&user) {
        return Err(4);
    }
    if found.count == USERS {
        return Err(5);
    }
    day[USERS_AT + found.count] = i64::from(user);
    day[COUNT] += 1;
    Ok(())
}

fn place_of(users: &[u16], user: u16) -> Option<usize> {
    users.iter().position(|&u| u == user)
}

/// Where users stand, for many lines: a table by the number's remainder, whose entry is tested.
struct Places<'a> {
    users: &'a [u16],
    hints: [u8; 1024],
}

impl Places<'_> {
    fn new(users: &[u16]) -> Places<'_> {
        let mut hints = [0; 1024];
        for (place, user) in users.iter().enumerate() {
            hints[usize::from(user % 1024)] = place as u8;
        }
        Places { users, hints }
    }

    fn of(&self, user: u16) -> Option<usize> {
        let hint = usize::from(self.hints[usize::from(user % 1024)]);
        if self.users.get(hint) == Some(&user) {
            return Some(hint);
        }
        place_of(self.users, user)
    }
}

/// Adds a line, and to the sum so far; gives its losses.
fn enter(
    day: &mut Numbers,
    place_of: impl FnOnce(u16) -> Option<usize>,
    offtake: &mut i64,
    (user, kind, consumption, coefficient): (u16, u8, u64, u64),
) -> Result<u64, Refusal> {
    if day[ALLOTTED] == 1 {
        return Err(1);
    }
    if user == 0 || !(1..=5).contains(&kind) || consumption > LIMIT as u64 || coefficient > 10_000 {
        return Err(2);
    }
    let place = place_of(user).ok_or(3)?;
    let losses = (consumption * coefficient + 50_000) / 100_000;
    let together = *offtake + (consumption + losses) as i64;
    if together > LIMIT {
        return Err(6);
    }
    *offtake = together;
    let i = KINDS * place + usize::from(kind) - 1;
    day[CONSUMPTION_AT + i] += consumption as i64;
    day[LOSSES_AT + i] += losses as i64;
    Ok(losses)
}

fn lines(
    day: &mut Numbers,
    found: &Found,
    lists: &LineLists,
    values: &mut Values,
) -> Result<(), Refusal> {
    let count = lists.users.len();
    if [
        lists.kinds.len(),
        lists.consumptions.len(),
        lists.coefficients.len(),
    ] != [count; 3]
    {
        return Err(2);
    }
    let places = Places::new(&found.users[..found.count]);
    let mut offtake = found.offtake;
    let amounts = lists.consumptions.iter().zip(&lists.coefficients);
    for ((&user, &kind), (&consumption, &coefficient)) in
        lists.users.iter().zip(&lists.kinds).zip(amounts)
    {
        let line = (user, kind, consumption, coefficient);
        values.second += enter(day, |user| places.of(user), &mut offtake, line)?;
        values.first += 1;
    }
    Ok(())
}

fn measure(day: &mut Numbers, emission: u64, downstream: u64) -> Result<(), Refusal> {
    if day[ALLOTTED] == 1 && day[STAGE] != PROVISIONAL {
        return Err(1);
    }
    if emission > LIMIT as u64 || downstream > emission {
        return Err(2);
    }
    day[MEASURED] = 1;
    day[EMISSION] = emission as i64;
    day[DOWNSTREAM] = downstream as i64;
    Ok(())
}

fn allot(day: &mut Numbers, found: &Found) -> Result<(), Refusal> {
    if day[ALLOTTED] == 1 {
        return Err(1);
    }
    let net = net(day).ok_or(7)?;
    let n = found.count;
    if n == 0 {
        return Err(8);
    }
    let (consumption, rest) = day[CONSUMPTION_AT..].split_at_mut(CELLS);
    let (losses, rest) = rest.split_at_mut(CELLS);
    let balance = &mut rest[..CELLS];
    // Kinds 2 to 5, or all kinds if nobody has any of those.
    let mut weights = [0u64; USERS];
    let mut from = 1;
    for first in [1, 0] {
        from = first;
        for (user, weight) in weights[..n].iter_mut().enumerate() {
            let cells = KINDS * user + from..KINDS * (user + 1);
            let sum = |xs: &[i64]| xs[cells.clone()].iter().sum::<i64>() as u64;
            *weight = sum(consumption) + sum(losses);
        }
        if weights[..n].iter().any(|&weight| weight > 0) {
            break;
        }
    }
    let mut shares = [0i64; USERS];
    split(
        net - found.offtake,
        &weights[..n],
        &found.users[..n],
        &mut shares,
    );
    bounded(
        found.wholes[..n]
            .iter()
            .zip(shares)
            .map(|(whole, share)| whole + share),
    )?;
    for (user, &share) in shares[..n].iter().enumerate() {
        let at = KINDS * user;
        if weights[user] == 0 {
            balance[at] = share;
        } else {
            let mut cells = [0u64; KINDS];
            for kind in from..KINDS {
                cells[kind] = (consumption[at + kind] + losses[at + kind]) as u64;
            }
            split(
                share,
                &cells,
                &[1, 2, 3, 4, 5],
                &mut balance[at..at + KINDS],
            );
        }
    }
    day[ALLOTTED] = 1;
    Ok(())
}

fn revise(day: &mut Numbers, found: &Found, values: &mut Values) -> Result<(), Refusal> {
    if day[ALLOTTED] == 0 || day[STAGE] != PROVISIONAL {
        return Err(1);
    }
    let wholes = &found.wholes[..found.count];
    let rest = net(day).unwrap_or(0) - wholes.iter().sum::<i64>();
    if rest.abs() > TOLERANCE {
        if wholes.iter().any(|&whole| whole < 0) {
            return Err(11);
        }
        let weights = found.wholes.map(|whole| whole as u64);
        let n = found.count;
        let mut shares = [0i64; USERS];
        split(rest, &weights[..n], &found.users[..n], &mut shares);
        bounded(
            wholes
                .iter()
                .zip(shares)
                .map(|(whole, share)| whole + share),
        )?;
        for (revision, share) in day[REVISION_AT..].iter_mut().zip(&shares[..n]) {
            *revision += share;
        }
    }
    values.first = u64::from(rest.abs() <= TOLERANCE);
    values.amount = rest;
    Ok(())
}

fn start_final(day: &mut Numbers) -> Result<(), Refusal> {
    if day[ALLOTTED] == 0 || day[STAGE] == FINAL_DEFINITIVE {
        return Err(1);
    }
    day[STAGE] += 1;
    day[ALLOTTED] = 0;
    day[CONSUMPTION_AT..].fill(0);
    Ok(())
}

fn stand_in(
    day: &mut Numbers,
    found: &Found,
    rows: &Rows,
    values: &mut Values,
) -> Result<(), Refusal> {
    if day[STAGE] != PROVISIONAL || day[ALLOTTED] == 1 || found.count > 0 {
        return Err(1);
    }
    if !rows.rows().all(row_right) {
        return Err(2);
    }
    let net = net(day).ok_or(7)?;
    if net <= TOLERANCE {
        return Err(9);
    }
    let (row, (users, amounts)) = rows
        .rows()
        .map(|row| row.expect("all rows are right"))
        .enumerate()
        .find(|(_, (users, _))| !users.is_empty())
        .ok_or(10)?;
    if amounts.iter().any(|&amount| amount < 0) {
        return Err(11);
    }
    let n = users.len();
    let mut weights = [0u64; USERS];
    for (weight, &amount) in weights.iter_mut().zip(amounts) {
        *weight = amount as u64;
    }
    let mut shares = [0i64; USERS];
    split(net, &weights[..n], users, &mut shares);
    bounded(shares[..n].iter().copied())?;
    for (number, &user) in day[USERS_AT..].iter_mut().zip(users) {
        *number = i64::from(user);
    }
    day[REVISION_AT..REVISION_AT + n].copy_from_slice(&shares[..n]);
    day[COUNT] = n as i64;
    day[ALLOTTED] = 1;
    values.first = row as u64 + 1;
    Ok(())
}

fn inventory(
    day: &Numbers,
    found: &Found,
    values: &mut Values,
    out: &mut [i64],
) -> Result<(), Refusal> {
    if day[ALLOTTED] == 0 {
        return Err(1);
    }
    let consumption = &day[CONSUMPTION_AT..LOSSES_AT];
    let losses = &day[LOSSES_AT..BALANCE_AT];
    let balance = &day[BALANCE_AT..REVISION_AT];
    let is_row = |&i: &usize| (consumption[i] | losses[i] | balance[i]) != 0;
    let cells = KINDS * found.count;
    let rows = (0..cells).filter(is_row).count();
    if out.len() < 5 * rows {
        return Err(14);
    }
    for (row, i) in out.chunks_exact_mut(5).zip((0..cells).filter(is_row)) {
        row.copy_from_slice(&[
            i64::from(found.users[i / KINDS]),
            (i % KINDS) as i64 + 1,
            consumption[i],
            losses[i],
            balance[i],
        ]);
    }
    values.first = rows as u64;
    Ok(())
}

/// At most 64 pairs, the numbers rising from 1, the amounts in range.
fn row_right(row: Option<(&[u16], &[i64])>) -> bool {
    row.is_some_and(|(users, amounts)| {
        users.first() != Some(&0)
            && users.windows(2).all(|pair| pair[0] < pair[1])
            && all_between(amounts, -AMOUNT, AMOUNT)
    })
}

/// An amount over weights by largest remainder, equal remainders to the lower key; all weights count 1 if all are zero.
fn split(amount: i64, weights: &[u64], keys: &[u16], shares: &mut [i64]) {
    let n = weights.len();
    let total: u64 = weights.iter().sum();
    let whole = if total == 0 { n as u64 } else { total };
    let size = amount.unsigned_abs();
    let mut left = size;
    let mut order = [(Reverse(0), 0, 0); USERS];
    for (i, &weight) in weights.iter().enumerate() {
        let product = size * if total == 0 { 1 } else { weight };
        let floor = product / whole;
        shares[i] = floor as i64;
        left -= floor;
        order[i] = (Reverse(product % whole), keys[i], i);
    }
    let left = left as usize;
    if left > 0 {
        order[..n].select_nth_unstable(left - 1);
        for &(_, _, i) in &order[..left] {
            shares[i] += 1;
        }
    }
    if amount < 0 {
        for share in &mut shares[..n] {
            *share = -*share;
        }
    }
}
