//! Calls, and point-days of 64 users in which they are made.

use std::rc::Rc;

use bench::Random;

pub const USERS: usize = 64;
pub const KINDS: usize = 5;
pub const CELLS: usize = USERS * KINDS;
pub const ROWS: usize = 15;
/// Lines that are entered at once.
pub const MANY: usize = 10_000;

/// A point-day in plain numbers.
pub type Numbers = [i64; 1094];

/// What calls answer: a call writes those that it has.
#[derive(Clone, Debug, Default, PartialEq)]
pub struct Values {
    pub first: u64,
    pub second: u64,
    pub amount: i64,
}

#[derive(Clone)]
pub struct Line {
    pub user: u16,
    pub kind: u8,
    pub consumption: u64,
    pub coefficient: u64,
}

/// Many lines, one number of each list a line.
#[derive(Default)]
pub struct LineLists {
    pub users: Vec<u16>,
    pub kinds: Vec<u8>,
    pub consumptions: Vec<u64>,
    pub coefficients: Vec<u64>,
}

impl LineLists {
    pub fn push(&mut self, line: Line) {
        self.users.push(line.user);
        self.kinds.push(line.kind);
        self.consumptions.push(line.consumption);
        self.coefficients.push(line.coefficient);
    }
}

/// The rows of a stand-in: pair j of row i stands at 64 i + j.
#[derive(Clone)]
pub struct Rows {
    pub counts: [usize; ROWS],
    pub users: [u16; ROWS * USERS],
    pub amounts: [i64; ROWS * USERS],
}

impl Rows {
    /// Each row's users and amounts; none of a row with too many.
    pub fn rows(&self) -> impl Iterator<Item = Option<(&[u16], &[i64])>> {
        self.counts.iter().enumerate().map(|(row, &count)| {
            let from = USERS * row;
            (count <= USERS).then(|| {
                (
                    &self.users[from..from + count],
                    &self.amounts[from..from + count],
                )
            })
        })
    }
}

#[derive(Clone)]
pub enum Call {
    Fresh,
    Join(u16),
    Line(Line),
    Lines(Rc<LineLists>),
    Measure(u64, u64),
    Allot,
    Revise,
    StartFinal,
    StandIn(Box<Rows>),
    Inventory,
}

/// As many distinct user numbers in a random order.
pub fn user_numbers(count: usize, random: &mut Random) -> Vec<u16> {
    let mut numbers = Vec::new();
    while numbers.len() < count {
        let number = random.below(65_535) as u16 + 1;
        if !numbers.contains(&number) {
            numbers.push(number);
        }
    }
    numbers
}

pub fn line(users: &[u16], random: &mut Random) -> Line {
    Line {
        user: users[random.below(users.len() as u64) as usize],
        kind: random.below(5) as u8 + 1,
        consumption: random.below(2_000_000),
        coefficient: random.below(10_001),
    }
}

/// Ten thousand lines that fit into one point-day, in a random order or user by user.
pub fn many_lines(users: &[u16], in_order: bool, random: &mut Random) -> LineLists {
    let mut lines: Vec<Line> = (0..MANY).map(|_| line(users, random)).collect();
    if in_order {
        lines.sort_by_key(|line| line.user);
    }
    let mut lists = LineLists::default();
    for line in lines {
        let consumption = line.consumption / 100;
        lists.push(Line {
            consumption,
            ..line
        });
    }
    lists
}

/// Rows of which the first few are empty and the others hold 64 pairs.
pub fn rows(empty: usize, random: &mut Random) -> Rows {
    let mut rows = Rows {
        counts: [0; ROWS],
        users: [0; ROWS * USERS],
        amounts: [0; ROWS * USERS],
    };
    for row in empty..ROWS {
        rows.counts[row] = USERS;
        let mut users = user_numbers(USERS, random);
        users.sort_unstable();
        for (j, user) in users.into_iter().enumerate() {
            rows.users[USERS * row + j] = user;
            rows.amounts[USERS * row + j] = random.below(10_000_000) as i64;
        }
    }
    rows
}

/// The calls that lead to a point-day of so many users with random lines, measured with more than they consume.
pub fn entering(count: usize, random: &mut Random) -> (Vec<u16>, Vec<Call>) {
    let users = user_numbers(count, random);
    let mut calls = vec![Call::Fresh];
    calls.extend(users.iter().map(|&user| Call::Join(user)));
    calls.extend((0..250).map(|_| Call::Line(line(&users, random))));
    calls.push(Call::Measure(400_000_000 + random.below(400_000_000), 0));
    (users, calls)
}
