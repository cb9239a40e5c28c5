//! The program `estimate`: supply points, calendar and readings, from standard input.

use crate::bytes::{Reader, Writer};
use crate::calendar::{self, DayType};
use crate::limits::MAX_INPUT;
use crate::reading;
use crate::refusal::Refusal;
use crate::replay::{lent_buffer, read_buffer_length, read_flag, MAX_BUFFER};
use crate::run::{named, Run};
use crate::supply::{
    Entry, OwnValue, Profile, Telemetered, Type1Other, Type1Toll34, Type2, MAX_HISTORY,
};
use crate::temperature;

#[derive(Clone, Debug)]
pub enum Operation {
    Telemetered(Telemetered),
    Type1Toll34(Type1Toll34),
    Type1Other(Type1Other),
    Type2(Type2),
    Profile(Profile),
    DegreeDays { tmin: i128, tmax: i128 },
    Zone(i128),
    Province(i128),
    Spread { reading: i128, weights: Vec<i128>, buffer: usize },
    DayType { day: i128, holidays: Vec<i128> },
    Month { day: i128, holidays: Vec<i128> },
}

/// More holidays are malformed.
const MAX_HOLIDAYS_READ: usize = 4_000;
/// More winters are malformed.
const MAX_WINTERS_READ: usize = 8;
/// Written where an entry has no value.
const NO_VALUE: i128 = u64::MAX as i128;
/// More days of a spread are malformed.
const MAX_DAYS_READ: usize = MAX_BUFFER;

pub fn run(input: &[u8]) -> Run {
    let mut run = Run::default();
    if input.len() > MAX_INPUT {
        run.malformed();
        return run;
    }
    let mut reader = Reader::new(input);
    while !reader.at_end() {
        let Some(operation) = Operation::read(&mut reader) else {
            run.malformed();
            return run;
        };
        run.operations += 1;
        run.line(answer(&operation));
    }
    run
}

fn answer(operation: &Operation) -> String {
    if let Operation::Spread { reading, weights, buffer } = operation {
        return lend_for_spread(*reading, weights, *buffer);
    }
    match outcome(operation) {
        Ok(line) => line,
        Err(refusal) => refused(refusal),
    }
}

fn refused(refusal: Refusal) -> String {
    format!("refused {}", refusal.number())
}

fn outcome(operation: &Operation) -> Result<String, Refusal> {
    Ok(match operation {
        Operation::Telemetered(point) => {
            let (value, looked_at) = point.estimate()?;
            format!("telemetered {value} {looked_at}")
        }
        Operation::Type1Toll34(point) => format!("type1 {}", point.estimate()?),
        Operation::Type1Other(point) => format!("type1 {}", point.estimate()?),
        Operation::Type2(group) => format!("type2 {}", group.estimate()?),
        Operation::Profile(profile) => format!("profile {}", profile.estimate()?),
        Operation::DegreeDays { tmin, tmax } => {
            format!("degree-days {}", temperature::degree_days(*tmin, *tmax)?)
        }
        Operation::Zone(hundredths) => format!("zone {}", temperature::zone(*hundredths)?),
        Operation::Province(number) => {
            let (value, zone) = temperature::province(*number)?;
            format!("province {value} {zone}")
        }
        Operation::Spread { .. } => unreachable!("answered with its buffer"),
        Operation::DayType { day, holidays } => {
            let name = match calendar::day_type(*day, holidays)? {
                DayType::Working => "working",
                DayType::Saturday => "saturday",
                DayType::SundayOrHoliday => "sunday",
            };
            format!("day-type {name}")
        }
        Operation::Month { day, holidays } => {
            let (month, mask) = calendar::month(*day, holidays)?;
            format!("month {} {} {mask} {}", month.first, month.days, mask.count_ones())
        }
    })
}

fn lend_for_spread(reading: i128, weights: &[i128], length: usize) -> String {
    let mut buffer = lent_buffer(length);
    let answer = match reading::spread(reading, weights, &mut buffer) {
        Ok(()) => "spread".to_string(),
        Err(refusal) => refused(refusal),
    };
    named(&answer, &buffer)
}

impl Operation {
    pub fn read(input: &mut Reader) -> Option<Operation> {
        Some(match input.u8()? {
            1 => Operation::Telemetered(read_telemetered(input)?),
            2 => Operation::Type1Toll34(Type1Toll34 {
                day: input.u32()? as i128,
                last_year: read_optional(input)?,
                g: input.u32()? as i128,
                degree_days: read_degree_days(input)?,
                last_month: read_optional(input)?,
                q_a: read_optional(input)?,
            }),
            3 => Operation::Type1Other(Type1Other {
                day: input.u32()? as i128,
                holidays: read_holidays(input)?,
                last_year: read_optional(input)?,
                c_c: input.u32()? as i128,
                last_month: read_optional(input)?,
                q_d: read_optional(input)?,
                f_c: input.u32()? as i128,
                c_f: input.u32()? as i128,
            }),
            4 => Operation::Type2(Type2 {
                consumers: input.u32()? as i128,
                profile: input.u64()? as i128,
                g: input.u32()? as i128,
                winters: read_winters(input)?,
            }),
            5 => Operation::Profile(Profile {
                month_consumption: [input.u64()? as i128, input.u64()? as i128],
                consumers: [input.u32()? as i128, input.u32()? as i128],
                days: [input.u32()? as i128, input.u32()? as i128],
            }),
            6 => Operation::DegreeDays { tmin: input.i32()? as i128, tmax: input.i32()? as i128 },
            7 => Operation::Zone(input.u32()? as i128),
            8 => Operation::Province(input.u32()? as i128),
            9 => Operation::Spread {
                reading: input.u64()? as i128,
                weights: read_weights(input)?,
                buffer: read_buffer_length(input)?,
            },
            10 => Operation::DayType { day: input.u32()? as i128, holidays: read_holidays(input)? },
            11 => Operation::Month { day: input.u32()? as i128, holidays: read_holidays(input)? },
            _ => return None,
        })
    }

    pub fn write(&self, out: &mut Writer) {
        match self {
            Operation::Telemetered(point) => {
                out.u8(1);
                write_telemetered(point, out);
            }
            Operation::Type1Toll34(point) => {
                out.u8(2);
                out.u32(point.day as u32);
                write_optional(point.last_year, out);
                out.u32(point.g as u32);
                write_degree_days(&point.degree_days, out);
                write_optional(point.last_month, out);
                write_optional(point.q_a, out);
            }
            Operation::Type1Other(point) => {
                out.u8(3);
                out.u32(point.day as u32);
                write_holidays(&point.holidays, out);
                write_optional(point.last_year, out);
                out.u32(point.c_c as u32);
                write_optional(point.last_month, out);
                write_optional(point.q_d, out);
                out.u32(point.f_c as u32);
                out.u32(point.c_f as u32);
            }
            Operation::Type2(group) => {
                out.u8(4);
                out.u32(group.consumers as u32);
                out.u64(group.profile as u64);
                out.u32(group.g as u32);
                out.u8(group.winters.len() as u8);
                for days in &group.winters {
                    write_degree_days(days, out);
                }
            }
            Operation::Profile(profile) => {
                out.u8(5);
                profile.month_consumption.iter().for_each(|&f| out.u64(f as u64));
                profile.consumers.iter().for_each(|&nc| out.u32(nc as u32));
                profile.days.iter().for_each(|&n| out.u32(n as u32));
            }
            Operation::DegreeDays { tmin, tmax } => {
                out.u8(6);
                out.i32(*tmin as i32);
                out.i32(*tmax as i32);
            }
            Operation::Zone(hundredths) => {
                out.u8(7);
                out.u32(*hundredths as u32);
            }
            Operation::Province(number) => {
                out.u8(8);
                out.u32(*number as u32);
            }
            Operation::Spread { reading, weights, buffer } => {
                out.u8(9);
                out.u64(*reading as u64);
                out.u16(weights.len() as u16);
                weights.iter().for_each(|&weight| out.i64(weight as i64));
                out.u16(*buffer as u16);
            }
            Operation::DayType { day, holidays } => {
                out.u8(10);
                out.u32(*day as u32);
                write_holidays(holidays, out);
            }
            Operation::Month { day, holidays } => {
                out.u8(11);
                out.u32(*day as u32);
                write_holidays(holidays, out);
            }
        }
    }
}

fn read_telemetered(input: &mut Reader) -> Option<Telemetered> {
    Some(Telemetered {
        day: input.u32()? as i128,
        holidays: read_holidays(input)?,
        reading: read_optional(input)?,
        own: read_own(input)?,
        toll_3_4: read_flag(input)?,
        q_a: read_optional(input)?,
        q_d: read_optional(input)?,
        f_c: input.u32()? as i128,
        history: read_history(input)?,
    })
}

fn write_telemetered(point: &Telemetered, out: &mut Writer) {
    out.u32(point.day as u32);
    write_holidays(&point.holidays, out);
    write_optional(point.reading, out);
    write_own(point.own, out);
    out.u8(point.toll_3_4 as u8);
    write_optional(point.q_a, out);
    write_optional(point.q_d, out);
    out.u32(point.f_c as u32);
    out.u16(point.history.len() as u16);
    for entry in &point.history {
        let (tag, value) = match *entry {
            // It has no value: what stands in its place is passed over.
            Entry::Nothing => (0, NO_VALUE),
            Entry::Real(value) => (1, value),
            Entry::Estimated(value) => (2, value),
            Entry::Own(value) => (3, value),
        };
        out.u8(tag);
        out.u64(value as u64);
    }
}

/// Entries past the 400th are passed over; they count all the same.
pub fn read_history(input: &mut Reader) -> Option<Vec<Entry>> {
    let count = input.u16()? as usize;
    let mut history = Vec::new();
    for i in 0..count {
        let tag = input.u8()?;
        let value = input.u64()? as i128;
        history.push(match tag {
            _ if i >= MAX_HISTORY => Entry::Nothing,
            0 => Entry::Nothing,
            1 => Entry::Real(value),
            2 => Entry::Estimated(value),
            3 => Entry::Own(value),
            _ => return None,
        });
    }
    Some(history)
}

/// An optional value is u8 0, or u8 1 and a u64.
pub fn read_optional(input: &mut Reader) -> Option<Option<i128>> {
    Some(match read_flag(input)? {
        true => Some(input.u64()? as i128),
        false => None,
    })
}

fn write_optional(value: Option<i128>, out: &mut Writer) {
    out.u8(value.is_some() as u8);
    if let Some(value) = value {
        out.u64(value as u64);
    }
}

/// An own value is u8 0, or u8 1, u64 value, u32 arrival and u32 length.
fn read_own(input: &mut Reader) -> Option<Option<OwnValue>> {
    Some(match read_optional(input)? {
        Some(value) => {
            Some(OwnValue { value, arrival: input.u32()? as i128, length: input.u32()? as i128 })
        }
        None => None,
    })
}

fn write_own(own: Option<OwnValue>, out: &mut Writer) {
    write_optional(own.map(|own| own.value), out);
    if let Some(own) = own {
        out.u32(own.arrival as u32);
        out.u32(own.length as u32);
    }
}

fn read_numbers(count: usize, input: &mut Reader) -> Option<Vec<i128>> {
    let mut numbers = Vec::new();
    for _ in 0..count {
        numbers.push(input.u32()? as i128);
    }
    Some(numbers)
}

pub fn read_holidays(input: &mut Reader) -> Option<Vec<i128>> {
    let count = input.u16()? as usize;
    if count > MAX_HOLIDAYS_READ {
        return None;
    }
    read_numbers(count, input)
}

fn write_holidays(holidays: &[i128], out: &mut Writer) {
    out.u16(holidays.len() as u16);
    holidays.iter().for_each(|&day| out.u32(day as u32));
}

fn read_degree_days(input: &mut Reader) -> Option<Vec<i128>> {
    let count = input.u8()? as usize;
    read_numbers(count, input)
}

fn write_degree_days(days: &[i128], out: &mut Writer) {
    out.u8(days.len() as u8);
    days.iter().for_each(|&day| out.u32(day as u32));
}

fn read_winters(input: &mut Reader) -> Option<Vec<Vec<i128>>> {
    let count = input.u8()? as usize;
    if count > MAX_WINTERS_READ {
        return None;
    }
    let mut winters = Vec::new();
    for _ in 0..count {
        winters.push(read_degree_days(input)?);
    }
    Some(winters)
}

fn read_weights(input: &mut Reader) -> Option<Vec<i128>> {
    let count = input.u16()? as usize;
    if count > MAX_DAYS_READ {
        return None;
    }
    let mut weights = Vec::new();
    for _ in 0..count {
        weights.push(input.i64()? as i128);
    }
    Some(weights)
}
