//! The program `replay`: calls on one point-day, from standard input.

use crate::bytes::{Reader, Writer};
use crate::calls::{self, Answer, Call, LineArguments, Row, STAND_IN_ROWS};
use crate::day_file;
use crate::inventory;
use crate::limits::{KINDS, MAX_INPUT, MAX_USERS};
use crate::point_day::{Measurement, PointDay, Slot, Stage};
use crate::refusal::Refusal;
use crate::run::Run;

#[derive(Clone, Debug)]
pub enum Operation {
    Fresh,
    Call(Call),
    Show,
    Load(PointDay),
    Inventory(usize),
    DayFile(Vec<u8>),
}

/// The greatest lent buffer.
pub const MAX_BUFFER: usize = 2_000;

pub fn run(input: &[u8]) -> Run {
    let mut run = Run::default();
    if input.len() > MAX_INPUT {
        run.malformed();
        return run;
    }
    let mut day = PointDay::fresh();
    let mut reader = Reader::new(input);
    while !reader.at_end() {
        let Some(operation) = Operation::read(&mut reader) else {
            run.malformed();
            return run;
        };
        run.operations += 1;
        perform(operation, &mut day, &mut run);
    }
    run
}

fn perform(operation: Operation, day: &mut PointDay, run: &mut Run) {
    match operation {
        Operation::Fresh => {
            *day = PointDay::fresh();
            run.line("fresh");
        }
        Operation::Load(loaded) => {
            *day = loaded;
            run.line("load");
        }
        Operation::Show => show(day, run),
        Operation::Inventory(length) => lend_for_inventory(day, length, run),
        Operation::DayFile(bytes) => run.text.push_str(&day_file::report(&bytes)),
        Operation::Call(call) => match calls::make(day, &call) {
            Ok(answer) => run.line(answer_line(&call, &answer)),
            Err(refusal) => run.refused(refusal),
        },
    }
}

fn answer_line(call: &Call, answer: &Answer) -> String {
    let name = match call {
        Call::Join(_) => "join",
        Call::Line(_) => "line",
        Call::Edit(_) => "edit",
        Call::Measure(_) => "measure",
        Call::Allot => "allot",
        Call::StandIn(_) => "stand-in",
        Call::Revise => "revise",
        Call::StartFinal => "start-final",
    };
    match answer {
        Answer::Done => name.to_string(),
        Answer::LossesAdded(losses) => format!("{name} {losses}"),
        Answer::RowsLookedAt(rows) => format!("{name} {rows}"),
        Answer::Revised(r) => format!("{name} {r}"),
        Answer::WithinTolerance(r) => format!("within {r}"),
    }
}

fn show(day: &PointDay, run: &mut Run) {
    if !day.taken() {
        return run.refused(Refusal::OutOfRange);
    }
    let stage = match day.stage {
        Stage::Provisional => "provisional",
        Stage::FinalProvisional => "final-provisional",
        Stage::FinalDefinitive => "final-definitive",
    };
    let state = if day.allotted { "allotted" } else { "entering" };
    let measure = match day.net() {
        Some(net) => format!("net {net}"),
        None => "unmeasured".to_string(),
    };
    run.line(format!("day {stage} {state} {} {measure}", day.count));
    for slot in day.users() {
        let mut figures = vec![slot.number];
        for kind in 0..KINDS {
            figures.extend([slot.consumption[kind], slot.losses[kind], slot.balance[kind]]);
        }
        figures.push(slot.revision);
        run.named("user", &figures);
    }
}

/// What a lent buffer holds before the call: −1, −2, −3, …
pub fn lent_buffer(length: usize) -> Vec<i128> {
    (1..=length as i128).map(|i| -i).collect()
}

fn lend_for_inventory(day: &PointDay, length: usize, run: &mut Run) {
    let mut buffer = lent_buffer(length);
    let answer = match inventory::inventory(day, &mut buffer) {
        Ok(rows) => format!("inventory {rows}"),
        Err(refusal) => format!("refused {}", refusal.number()),
    };
    run.named(&answer, &buffer);
}

impl Operation {
    pub fn read(input: &mut Reader) -> Option<Operation> {
        Some(match input.u8()? {
            0 => Operation::Fresh,
            1 => Operation::Call(Call::Join(input.u16()? as i128)),
            2 => Operation::Call(Call::Line(read_line(input)?)),
            3 => Operation::Call(Call::Edit(read_line(input)?)),
            4 => Operation::Call(Call::Measure(read_measurement(input)?)),
            5 => Operation::Call(Call::Allot),
            6 => Operation::Call(Call::StandIn(read_rows(input)?)),
            7 => Operation::Call(Call::Revise),
            8 => Operation::Call(Call::StartFinal),
            9 => Operation::Show,
            10 => Operation::Load(read_point_day(input)?),
            11 => Operation::Inventory(read_buffer_length(input)?),
            12 => {
                let length = input.u32()? as usize;
                Operation::DayFile(input.take(length)?.to_vec())
            }
            _ => return None,
        })
    }

    pub fn write(&self, out: &mut Writer) {
        match self {
            Operation::Fresh => out.u8(0),
            Operation::Call(call) => write_call(call, out),
            Operation::Show => out.u8(9),
            Operation::Load(day) => {
                out.u8(10);
                write_point_day(day, out);
            }
            Operation::Inventory(length) => {
                out.u8(11);
                out.u16(*length as u16);
            }
            Operation::DayFile(bytes) => {
                out.u8(12);
                out.u32(bytes.len() as u32);
                out.raw(bytes);
            }
        }
    }
}

pub fn read_buffer_length(input: &mut Reader) -> Option<usize> {
    let length = input.u16()? as usize;
    (length <= MAX_BUFFER).then_some(length)
}

fn write_call(call: &Call, out: &mut Writer) {
    match call {
        Call::Join(user) => {
            out.u8(1);
            out.u16(*user as u16);
        }
        Call::Line(arguments) => {
            out.u8(2);
            write_line(arguments, out);
        }
        Call::Edit(arguments) => {
            out.u8(3);
            write_line(arguments, out);
        }
        Call::Measure(measurement) => {
            out.u8(4);
            write_measurement(measurement, out);
        }
        Call::Allot => out.u8(5),
        Call::StandIn(rows) => {
            out.u8(6);
            write_rows(rows, out);
        }
        Call::Revise => out.u8(7),
        Call::StartFinal => out.u8(8),
    }
}

fn read_line(input: &mut Reader) -> Option<LineArguments> {
    Some(LineArguments {
        user: input.u16()? as i128,
        kind: input.u8()? as i128,
        consumption: input.u64()? as i128,
        coefficient: input.u32()? as i128,
    })
}

fn write_line(arguments: &LineArguments, out: &mut Writer) {
    out.u16(arguments.user as u16);
    out.u8(arguments.kind as u8);
    out.u64(arguments.consumption as u64);
    out.u32(arguments.coefficient as u32);
}

fn read_measurement(input: &mut Reader) -> Option<Measurement> {
    let emission = input.u64()? as i128;
    let downstream = input.u64()? as i128;
    Some(Measurement { emission, downstream })
}

fn write_measurement(measurement: &Measurement, out: &mut Writer) {
    out.u64(measurement.emission as u64);
    out.u64(measurement.downstream as u64);
}

/// A row's count may be over 64: its pairs stand in the input all the same.
fn read_rows(input: &mut Reader) -> Option<Vec<Row>> {
    let mut rows = Vec::new();
    for _ in 0..STAND_IN_ROWS {
        let count = input.u16()?;
        let mut row = Row::new();
        for _ in 0..count {
            row.push((input.u16()? as i128, input.i64()? as i128));
        }
        rows.push(row);
    }
    Some(rows)
}

fn write_rows(rows: &[Row], out: &mut Writer) {
    for row in rows {
        out.u16(row.len() as u16);
        for &(user, amount) in row {
            out.u16(user as u16);
            out.i64(amount as i64);
        }
    }
}

pub fn read_flag(input: &mut Reader) -> Option<bool> {
    match input.u8()? {
        0 => Some(false),
        1 => Some(true),
        _ => None,
    }
}

fn read_point_day(input: &mut Reader) -> Option<PointDay> {
    let stage = *Stage::ALL.get(input.u8()? as usize)?;
    let allotted = read_flag(input)?;
    let measured = read_flag(input)?;
    let measurement = read_measurement(input)?;
    let count = input.u16()? as usize;
    let mut slots = vec![Slot::default(); MAX_USERS];
    for slot in &mut slots {
        slot.number = input.u16()? as i128;
    }
    for table in [consumption_of, losses_of, balance_of] {
        for slot in &mut slots {
            for cell in table(slot) {
                *cell = input.i64()? as i128;
            }
        }
    }
    for slot in &mut slots {
        slot.revision = input.i64()? as i128;
    }
    Some(PointDay { stage, allotted, measurement: measured.then_some(measurement), count, slots })
}

fn consumption_of(slot: &mut Slot) -> &mut [i128; KINDS] {
    &mut slot.consumption
}

fn losses_of(slot: &mut Slot) -> &mut [i128; KINDS] {
    &mut slot.losses
}

fn balance_of(slot: &mut Slot) -> &mut [i128; KINDS] {
    &mut slot.balance
}

fn write_point_day(day: &PointDay, out: &mut Writer) {
    out.u8(day.stage as u8);
    out.u8(day.allotted as u8);
    out.u8(day.measurement.is_some() as u8);
    let none = Measurement { emission: 0, downstream: 0 };
    write_measurement(&day.measurement.unwrap_or(none), out);
    out.u16(day.count as u16);
    for slot in &day.slots {
        out.u16(slot.number as u16);
    }
    let cells = |out: &mut Writer, of: fn(&Slot) -> &[i128; KINDS]| {
        for slot in &day.slots {
            for &cell in of(slot) {
                out.i64(cell as i64);
            }
        }
    };
    cells(out, |slot| &slot.consumption);
    cells(out, |slot| &slot.losses);
    cells(out, |slot| &slot.balance);
    for slot in &day.slots {
        out.i64(slot.revision as i64);
    }
}
