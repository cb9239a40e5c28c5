//! Times the proved calls on a point-day of 64 users beside plain Rust, on the same numbers in one run, and prints a table.

mod cases;
mod plain;
mod proved;

use std::hint::black_box;
use std::rc::Rc;

use bench::Random;
use cases::{Call, LineLists, Numbers, Values, CELLS, USERS};

const CASES: usize = 16;
const ROUNDS: usize = 2_000;
const WALKS: usize = 400;

const NUMBERS: usize = 1094;

/// Five numbers for each user and kind.
const ROOM: usize = 5 * CELLS;

/// A call, and the point-day in which it is made.
#[derive(Clone)]
struct Case {
    day: Numbers,
    call: Call,
}

fn main() {
    let mut random = Random::new(88_172_645_463_325_252);
    compare(&mut random);
    println!("| call | proved, ns | Rust, ns | ratio |");
    println!("|---|---|---|---|");
    for (name, answer, make) in TABLE {
        let cases: Vec<Case> = (0..CASES).map(|_| make(&mut random)).collect();
        time(name, answer, &cases, ROUNDS, 1);
    }
    println!();
    println!("| 10,000 lines at once | proved, ns a line | Rust, ns a line | ratio |");
    println!("|---|---|---|---|");
    for (name, in_order) in [("user by user", true), ("in a random order", false)] {
        let cases: Vec<Case> = (0..4).map(|_| entered(in_order, &mut random)).collect();
        time(name, 0, &cases, ROUNDS / 10, cases::MANY);
    }
}

/// Prints the time of a call, or of each of so many lines in it.
fn time(name: &str, answer: u8, cases: &[Case], rounds: usize, lines: usize) {
    for case in cases {
        assert_eq!(both(&mut case.day.clone(), &case.call), answer);
    }
    let (proved, plain) = bench::best_of_states(rounds, cases, run(proved::call), run(plain::call));
    let (proved, plain) = (proved / lines as f64, plain / lines as f64);
    let digits = if lines == 1 { 0 } else { 1 };
    println!(
        "| {name} | {proved:.digits$} | {plain:.digits$} | {:.2} |",
        proved / plain
    );
}

/// Makes a call of a case, and keeps the compiler from leaving it out.
fn run(call: fn(&mut Numbers, &Call, &mut Values, &mut [i64]) -> u8) -> impl FnMut(&mut Case) {
    let mut out = [0; ROOM];
    let mut values = Values::default();
    move |case| {
        let day = black_box(&mut case.day);
        black_box(call(day, &case.call, &mut values, &mut out));
        black_box((&mut values, &mut out));
    }
}

/// Many lines on a point-day of 64 users without lines.
fn entered(in_order: bool, random: &mut Random) -> Case {
    let users = cases::user_numbers(USERS, random);
    let mut day = [0; NUMBERS];
    both(&mut day, &Call::Fresh);
    for &user in &users {
        assert_eq!(both(&mut day, &Call::Join(user)), 0);
    }
    let lines = cases::many_lines(&users, in_order, random);
    Case {
        day,
        call: Call::Lines(Rc::new(lines)),
    }
}

/// A row of the table: its name, the answer of its calls, and a case.
type Row = (&'static str, u8, fn(&mut Random) -> Case);

const TABLE: [Row; 12] = [
    ("join", 0, |random| {
        let (users, day) = day_of(USERS - 1, random);
        Case {
            day,
            call: Call::Join(unused(&users)),
        }
    }),
    ("line", 0, |random| {
        let (users, day) = day_of(USERS, random);
        Case {
            day,
            call: Call::Line(cases::line(&users, random)),
        }
    }),
    ("measure", 0, |random| Case {
        day: day_of(USERS, random).1,
        call: Call::Measure(900_000_000, 1_000),
    }),
    ("allot", 0, |random| Case {
        day: day_of(USERS, random).1,
        call: Call::Allot,
    }),
    ("revise, assigned", 0, |random| revised(random, 1_000_000)),
    ("revise, within tolerance", 0, |random| revised(random, 100)),
    ("start-final", 0, |random| Case {
        day: allotted(random),
        call: Call::StartFinal,
    }),
    ("stand-in, first row", 0, |random| stood_in(0, random)),
    ("stand-in, fifteenth row", 0, |random| stood_in(14, random)),
    ("inventory", 0, |random| Case {
        day: allotted(random),
        call: Call::Inventory,
    }),
    ("measure refused: 1, by the stage", 1, |random| {
        let mut day = allotted(random);
        both(&mut day, &Call::StartFinal);
        both(&mut day, &Call::Allot);
        Case {
            day,
            call: Call::Measure(1_000, 0),
        }
    }),
    ("measure refused: 2, 65 users", 2, |random| {
        let mut day = day_of(USERS, random).1;
        day[5] = 65;
        Case {
            day,
            call: Call::Measure(1_000, 0),
        }
    }),
];

/// The users and the numbers of a point-day with so many users, measured and entering.
fn day_of(users: usize, random: &mut Random) -> (Vec<u16>, Numbers) {
    let (users, calls) = cases::entering(users, random);
    let mut day = [0; NUMBERS];
    for call in &calls {
        assert_eq!(both(&mut day, call), 0);
    }
    (users, day)
}

fn allotted(random: &mut Random) -> Numbers {
    let mut day = day_of(USERS, random).1;
    assert_eq!(both(&mut day, &Call::Allot), 0);
    day
}

/// A revise of an allotted point-day whose net has risen.
fn revised(random: &mut Random, rise: i64) -> Case {
    let mut day = allotted(random);
    let emission = (day[3] + rise) as u64;
    let measure = Call::Measure(emission, 0);
    assert_eq!(both(&mut day, &measure), 0);
    Case {
        day,
        call: Call::Revise,
    }
}

/// A stand-in whose first rows are empty.
fn stood_in(empty: usize, random: &mut Random) -> Case {
    let mut day = [0; NUMBERS];
    both(&mut day, &Call::Fresh);
    assert_eq!(both(&mut day, &Call::Measure(500_000_000, 0)), 0);
    Case {
        day,
        call: Call::StandIn(Box::new(cases::rows(empty, random))),
    }
}

/// The call, proved and plain: both give the same answer, the same values, numbers and rows.
fn both(day: &mut Numbers, call: &Call) -> u8 {
    both_with_room(day, call, ROOM)
}

/// The same, with so much room for rows.
fn both_with_room(day: &mut Numbers, call: &Call, room: usize) -> u8 {
    let mut theirs = *day;
    let (mut our_rows, mut their_rows) = (vec![-1; room], vec![-1; room]);
    let before = Values {
        first: 77,
        second: 78,
        amount: -79,
    };
    let (mut ours, mut their_values) = (before.clone(), before);
    let answer = proved::call(day, call, &mut ours, &mut our_rows);
    assert_eq!(
        answer,
        plain::call(&mut theirs, call, &mut their_values, &mut their_rows)
    );
    assert_eq!(*day, theirs);
    assert_eq!(ours, their_values);
    assert_eq!(our_rows, their_rows);
    answer
}

/// Both do the same in random calls; each refusal that a call can give is among the answers (12 never comes).
fn compare(random: &mut Random) {
    let mut answers = [false; 16];
    for _ in 0..WALKS {
        walk(random, &mut answers);
    }
    let (users, mut full) = day_of(USERS, random);
    answers[usize::from(both(&mut full, &Call::Join(unused(&users))))] = true;
    assert!((0..=11).chain([14]).all(|answer| answers[answer]));
}

/// Random calls from a fresh point-day, refused ones among them; now and then on numbers of which one is wrong.
fn walk(random: &mut Random, answers: &mut [bool]) {
    let mut day = [0; NUMBERS];
    both(&mut day, &Call::Fresh);
    let users = cases::user_numbers(8, random);
    for _ in 0..60 {
        let call = any_call(&users, random);
        if random.below(4) == 0 {
            both(&mut with_a_wrong_number(day, random), &call);
        }
        let room = 5 * random.below(40) as usize;
        answers[usize::from(both_with_room(&mut day, &call, room))] = true;
    }
}

fn with_a_wrong_number(mut day: Numbers, random: &mut Random) -> Numbers {
    const VALUES: [i64; 11] = [
        -1,
        0,
        1,
        2,
        3,
        65,
        65_536,
        1_000_000_001,
        2_000_000_001,
        i64::MIN,
        i64::MAX,
    ];
    let among = if random.below(2) == 0 {
        20
    } else {
        NUMBERS as u64
    };
    day[random.below(among) as usize] = VALUES[random.below(11) as usize];
    day
}

/// A number that no user has.
fn unused(users: &[u16]) -> u16 {
    (1..)
        .find(|user| !users.contains(user))
        .expect("a number is left")
}

fn any_call(users: &[u16], random: &mut Random) -> Call {
    match random.below(25) {
        0..=5 => Call::Join(users[random.below(8) as usize]),
        6..=9 => Call::Line(any_line(users, random)),
        10..=12 => Call::Lines(Rc::new(any_lines(users, random))),
        13..=16 => Call::Measure(random.below(1_000_000_100), random.below(1_000_000)),
        17 => Call::Measure(random.below(300), random.below(300)),
        18 => Call::Allot,
        19..=20 => Call::Revise,
        21 => Call::StartFinal,
        22 => Call::Join(random.below(3) as u16),
        23 => Call::Inventory,
        _ => Call::StandIn(Box::new(any_rows(random))),
    }
}

fn any_line(users: &[u16], random: &mut Random) -> cases::Line {
    let mut line = cases::line(users, random);
    match random.below(12) {
        0 => line.kind = random.below(8) as u8,
        1 => line.coefficient = random.below(20_000),
        2 => line.consumption = random.below(1_500_000_000),
        3 => line.user = random.below(4) as u16,
        _ => {}
    }
    line
}

/// Up to nine lines, sometimes in lists of unequal lengths.
fn any_lines(users: &[u16], random: &mut Random) -> LineLists {
    let mut lists = LineLists::default();
    for _ in 0..random.below(10) {
        let line = if random.below(4) == 0 {
            any_line(users, random)
        } else {
            cases::line(users, random)
        };
        lists.push(line);
    }
    match random.below(20) {
        0 => lists.users.push(1),
        1 => lists.kinds.push(1),
        2 => lists.consumptions.push(1),
        3 => lists.coefficients.push(1),
        _ => {}
    }
    lists
}

/// Rows of up to three pairs, sometimes with a fault.
fn any_rows(random: &mut Random) -> cases::Rows {
    let mut rows = cases::rows(random.below(16) as usize, random);
    for count in &mut rows.counts {
        *count = (*count).min(random.below(4) as usize);
    }
    match random.below(6) {
        0 => rows.counts[14] = 65,
        1 => rows.amounts[random.below(960) as usize] = -5,
        2 => rows.users[random.below(960) as usize] = 1,
        3 => rows.amounts[random.below(960) as usize] = 2_000_000_001,
        _ => {}
    }
    rows
}
