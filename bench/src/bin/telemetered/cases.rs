//! Random telemetered points without a reading: a gas day, 2,000 holidays, a history of 400 entries, and an own value or none.

use bench::Random;

pub const NOTHING: u8 = 0;
pub const REAL: u8 = 1;
pub const ESTIMATED: u8 = 2;
pub const OWN: u8 = 3;

const ENTRIES: usize = 400;
const HOLIDAYS: usize = 2_000;
const LAST_DAY: u32 = 30_680;

pub struct Case {
    pub day: u32,
    pub holidays: Vec<u32>,
    pub tags: Vec<u8>,
    pub values: Vec<u64>,
    pub day_flow: u64,
    pub factor: u32,
    pub own: Option<Own>,
}

/// A user's own value, the minute of its arrival, and the minutes of the gas day.
#[derive(Clone, Copy)]
pub struct Own {
    pub kwh: u64,
    pub arrival: u32,
    pub length: u32,
}

/// Whether a user sent an own value, and when.
#[derive(Clone, Copy)]
pub enum Sent {
    Not,
    Late,
    InTime,
}

impl Sent {
    fn draw(self, random: &mut Random) -> Option<Own> {
        if let Sent::Not = self {
            return None;
        }
        let length = [1_380, 1_440, 1_500][random.below(3) as usize];
        let limit = length - 720;
        let arrival = match self {
            Sent::Late => limit + 1 + random.below(720) as u32,
            _ => random.below(u64::from(limit) + 1) as u32,
        };
        let kwh = random.below(1_000_000_001);
        Some(Own {
            kwh,
            arrival,
            length,
        })
    }
}

/// Where the search ends.
#[derive(Clone, Copy)]
pub enum History {
    Near,
    Far,
    NoMatch,
    New,
}

impl History {
    /// What stands for the day that is so many days before the gas day, a Wednesday.
    fn tag(self, before: usize, random: &mut Random) -> u8 {
        let other = [NOTHING, ESTIMATED, OWN][random.below(3) as usize];
        let weekend = matches!(before % 7, 3 | 4);
        match self {
            History::Near => {
                if random.below(4) == 0 {
                    other
                } else {
                    REAL
                }
            }
            History::Far if weekend || before > 393 => REAL,
            History::NoMatch if weekend => REAL,
            _ => other,
        }
    }
}

/// A random case of the kind.
pub fn case(kind: History, sent: Sent, random: &mut Random) -> Case {
    let wednesday = 7 * (ENTRIES as u32 + random.below(4_000) as u32) + 5;
    let mut days: Vec<u32> = (0..=LAST_DAY)
        .filter(|&day| !(wednesday - ENTRIES as u32..=wednesday).contains(&day))
        .collect();
    let mut holidays: Vec<u32> = (0..HOLIDAYS)
        .map(|_| days.swap_remove(random.below(days.len() as u64) as usize))
        .collect();
    holidays.sort_unstable();
    Case {
        day: wednesday,
        holidays,
        tags: (1..=ENTRIES)
            .map(|before| kind.tag(before, random))
            .collect(),
        values: (0..ENTRIES).map(|_| random.below(1_000_000_001)).collect(),
        day_flow: random.below(1_000_000_001),
        factor: random.below(1_001) as u32,
        own: sent.draw(random),
    }
}
