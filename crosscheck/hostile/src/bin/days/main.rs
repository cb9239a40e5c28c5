//! Point-days, taken or not, through the proved library beside the calculation: every call with the
//! same answer, the same values and the same numbers afterwards. See crosscheck/README.md.

mod proved;

use std::collections::BTreeMap;
use std::process::ExitCode;

use crosscheck::damaged_days::{DamagedDay, DamagedDays};
use crosscheck::plain::{self, PlainCall, PlainLines, PlainOutcome, PlainRows, NUMBERS};
use hostile::fenced::Fenced;
use proved::Lent;

/// More numbers than any list or buffer here has.
const MOST: usize = 2 * NUMBERS;

fn main() -> ExitCode {
    hostile::ended(run())
}

/// `[N [SEED]]`.
fn run() -> Result<(), String> {
    let (count, seed) = hostile::count_and_seed()?;
    let mut memory = Memory::new();
    let mut answers: BTreeMap<&str, BTreeMap<u8, usize>> = BTreeMap::new();
    for (i, day) in DamagedDays::new(seed).take(count).enumerate() {
        for call in &day.calls {
            let wanted = plain::outcome(&day.numbers, call);
            memory
                .check(&day.numbers, call, &wanted)
                .map_err(|what| difference(i, &day, call, &what))?;
            let answers = answers.entry(call.name()).or_default();
            *answers.entry(wanted.answer).or_insert(0) += 1;
        }
    }
    for (call, answers) in &answers {
        let counts: Vec<String> = answers.iter().map(said).collect();
        println!("{call}: {}", counts.join(", "));
    }
    let calls: usize = answers.values().flat_map(BTreeMap::values).sum();
    println!("{count} point-days of seed {seed}, {calls} calls: the same answers");
    Ok(())
}

fn said((answer, count): (&u8, &usize)) -> String {
    match answer {
        0 => format!("{count} accepted"),
        number => format!("{count} refused {number}"),
    }
}

/// Each list ends at a fence, and so does each value.
struct Memory {
    day: Fenced,
    lists: Lists,
    out: Fenced,
    first: Fenced,
    second: Fenced,
    amount: Fenced,
}

/// The lists that are only read.
struct Lists {
    users: Fenced,
    kinds: Fenced,
    consumptions: Fenced,
    coefficients: Fenced,
    counts: Fenced,
    amounts: Fenced,
}

impl Memory {
    fn new() -> Memory {
        let room = || Fenced::new(MOST * size_of::<i64>());
        let lists = Lists {
            users: room(),
            kinds: room(),
            consumptions: room(),
            coefficients: room(),
            counts: room(),
            amounts: room(),
        };
        let value = || Fenced::new(size_of::<i64>());
        let (first, second, amount) = (value(), value(), value());
        Memory { day: room(), lists, out: room(), first, second, amount }
    }

    /// One call: the answer, the numbers, the values and the rows that it should give, and nothing
    /// else written.
    fn check(
        &mut self,
        before: &[i64],
        call: &PlainCall,
        wanted: &PlainOutcome,
    ) -> Result<(), String> {
        for memory in
            [&mut self.day, &mut self.out, &mut self.first, &mut self.second, &mut self.amount]
        {
            fill(memory);
        }
        self.day.last_numbers(before.len()).copy_from_slice(before);
        let answer = self.call(before.len(), call)?;
        let same = same_numbers(self.day.last_numbers(before.len()), &wanted.numbers);
        if answer != wanted.answer {
            let numbers = same.err().unwrap_or_default();
            return Err(format!("the library answers {answer}, not {}; {numbers}", wanted.answer));
        }
        same?;
        untouched(&mut self.day, before.len(), before.len(), "the point-day")?;
        self.same_values(call, &wanted.values)?;
        let room = room_of(call);
        let written = 5 * wanted.rows.len();
        untouched(&mut self.out, room, written, "the inventory's buffer")?;
        same_rows(&self.out.last_numbers(room)[..written], &wanted.rows)
    }

    /// The values that are written, and the others as they were. Revise's second is signed.
    fn same_values(&mut self, call: &PlainCall, wanted: &[i64]) -> Result<(), String> {
        let second = if *call == PlainCall::Revise { 2 } else { 1 };
        let places = [&mut self.first, &mut self.second, &mut self.amount];
        for (place, memory) in places.into_iter().enumerate() {
            let value = match place {
                0 => wanted.first(),
                _ if place == second => wanted.get(1),
                _ => None,
            };
            let written = value.map_or(0, |_| 1);
            untouched(memory, written, written, "a value")?;
            let given: i64 = memory.last_numbers(1)[0];
            if value.is_some_and(|&value| value != given) {
                return Err(format!("the library's values have {given}, not {wanted:?}"));
            }
        }
        Ok(())
    }

    fn call(&mut self, numbers: usize, call: &PlainCall) -> Result<u8, String> {
        let lists = Arguments::of(call);
        let fenced = &mut self.lists;
        let mut lent = Lent {
            day: self.day.last_numbers(numbers),
            users: fenced.users.holding(&lists.users),
            kinds: fenced.kinds.holding(&lists.kinds),
            consumptions: fenced.consumptions.holding(&lists.consumptions),
            coefficients: fenced.coefficients.holding(&lists.coefficients),
            counts: fenced.counts.holding(&lists.counts),
            amounts: fenced.amounts.holding(&lists.amounts),
            out: self.out.last_numbers(room_of(call)),
            first: &mut self.first.last_numbers(1)[0],
            second: &mut self.second.last_numbers(1)[0],
            amount: &mut self.amount.last_numbers(1)[0],
        };
        let answer = proved::call(&mut lent, call);
        if lists.are_in(&lent) {
            Ok(answer)
        } else {
            Err("a list that is only read was written to".to_string())
        }
    }
}

/// The lists of a call's arguments; those that it does not have are empty.
#[derive(Default)]
struct Arguments {
    users: Vec<u16>,
    kinds: Vec<u8>,
    consumptions: Vec<u64>,
    coefficients: Vec<u64>,
    counts: Vec<usize>,
    amounts: Vec<i64>,
}

impl Arguments {
    fn of(call: &PlainCall) -> Arguments {
        match call.clone() {
            PlainCall::Lines(PlainLines { users, kinds, consumptions, coefficients }) => {
                Arguments { users, kinds, consumptions, coefficients, ..Arguments::default() }
            }
            PlainCall::StandIn(PlainRows { counts, users, amounts }) => {
                Arguments { counts, users, amounts, ..Arguments::default() }
            }
            _ => Arguments::default(),
        }
    }

    fn are_in(&self, lent: &Lent) -> bool {
        lent.users == self.users
            && lent.kinds == self.kinds
            && lent.consumptions == self.consumptions
            && lent.coefficients == self.coefficients
            && lent.counts == self.counts
            && lent.amounts == self.amounts
    }
}

fn room_of(call: &PlainCall) -> usize {
    if let PlainCall::Inventory(room) = call {
        *room
    } else {
        0
    }
}

/// What a number holds before a call, if the call is not lent it as something else.
fn filler(place: usize) -> i64 {
    -7_000_000_000_000 - place as i64
}

fn fill(memory: &mut Fenced) {
    for (place, number) in memory.all_numbers().iter_mut().enumerate() {
        *number = filler(place);
    }
}

/// All numbers before the lent ones, and the lent ones after those written.
fn untouched(memory: &mut Fenced, lent: usize, written: usize, name: &str) -> Result<(), String> {
    let all: &[i64] = memory.all_numbers();
    let start = all.len() - lent;
    let mut others = (0..start).chain(start + written..all.len());
    match others.find(|&place| all[place] != filler(place)) {
        None => Ok(()),
        Some(place) => {
            let place = place as i64 - start as i64;
            Err(format!("number {place} of {name} was written"))
        }
    }
}

fn same_numbers(numbers: &[i64], wanted: &[i64]) -> Result<(), String> {
    let different: Vec<String> = (0..wanted.len())
        .filter(|&place| numbers[place] != wanted[place])
        .map(|place| format!("number {place} is {}, not {}", numbers[place], wanted[place]))
        .collect();
    if different.is_empty() {
        Ok(())
    } else {
        Err(format!("of the library's numbers afterwards, {}", different.join("; ")))
    }
}

/// "Rows come in any order, each exactly once."
fn same_rows(written: &[i64], wanted: &[[i64; 5]]) -> Result<(), String> {
    let mut rows: Vec<&[i64]> = written.chunks(5).collect();
    rows.sort();
    if rows == wanted {
        Ok(())
    } else {
        Err(format!("the library's rows are {rows:?}, not {wanted:?}"))
    }
}

/// Says what differs, for which call on which numbers.
fn difference(i: usize, day: &DamagedDay, call: &PlainCall, what: &str) -> String {
    let numbers: Vec<String> = day
        .numbers
        .iter()
        .enumerate()
        .filter(|(_, &number)| number != 0)
        .map(|(place, number)| format!("{place}: {number}"))
        .collect();
    format!(
        "point-day {i}, {call:?}: {what}\nthe point-day has {} numbers, those other than 0 are {}",
        day.numbers.len(),
        numbers.join(", ")
    )
}
