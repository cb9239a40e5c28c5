//! Document 01, "Day file and inventory": the day file and the report on it.

use crate::bytes::Reader;
use crate::calendar::LAST_DAY;
use crate::calls::{self, Call, LineArguments};
use crate::point_day::{sum, Measurement, PointDay};
use crate::refusal::Refusal;
use crate::run::Run;

pub const MARK: &[u8; 4] = b"REP1";
pub const MAX_FILE: usize = 65_536;

/// The mark, gas day, emission, downstream and P.
pub const HEADER: usize = 18;
/// One pair of offset and length.
pub const PAIR: usize = 8;
/// A section is a user number and any number of lines.
pub const SECTION_USER: usize = 2;
pub const SECTION_LINE: usize = 7;

/// A well-formed day file.
#[derive(Clone, Debug, PartialEq, Eq)]
pub struct DayFile {
    pub day: i128,
    pub measurement: Measurement,
    pub sections: Vec<Section>,
}

#[derive(Clone, Debug, PartialEq, Eq)]
pub struct Section {
    pub user: i128,
    pub lines: Vec<LineArguments>,
}

/// The file that the bytes are, or `None` if they are malformed.
pub fn decode(bytes: &[u8]) -> Option<DayFile> {
    if bytes.len() > MAX_FILE {
        return None;
    }
    let mut input = Reader::new(bytes);
    if input.take(MARK.len())? != MARK {
        return None;
    }
    let day = input.u32()? as i128;
    let emission = input.u32()? as i128;
    let downstream = input.u32()? as i128;
    let count = input.u16()? as usize;
    let mut pairs = Vec::new();
    for _ in 0..count {
        let offset = input.u32()? as usize;
        let length = input.u32()? as usize;
        pairs.push((offset, offset + length));
    }
    let mut sections = Vec::new();
    // Where the bytes end that no further section may overlap.
    let mut free_from = HEADER + PAIR * count;
    for (start, end) in pairs {
        if start < free_from || end > bytes.len() {
            return None;
        }
        sections.push(decode_section(&bytes[start..end])?);
        free_from = end;
    }
    Some(DayFile { day, measurement: Measurement { emission, downstream }, sections })
}

fn decode_section(bytes: &[u8]) -> Option<Section> {
    let mut input = Reader::new(bytes);
    let user = input.u16()? as i128;
    let mut lines = Vec::new();
    while !input.at_end() {
        lines.push(LineArguments {
            user,
            kind: input.u8()? as i128,
            consumption: input.u32()? as i128,
            coefficient: input.u16()? as i128,
        });
    }
    Some(Section { user, lines })
}

/// "then measure, the sections' joins and lines in order, and allot"
pub fn calls_of(file: &DayFile) -> Vec<Call> {
    let mut calls = vec![Call::Measure(file.measurement)];
    for section in &file.sections {
        calls.push(Call::Join(section.user));
        calls.extend(section.lines.iter().cloned().map(Call::Line));
    }
    calls.push(Call::Allot);
    calls
}

/// The day number and the allotted point-day; "the first refusal is the answer".
pub fn read(bytes: &[u8]) -> Result<(i128, PointDay), Refusal> {
    let file = decode(bytes).ok_or(Refusal::MalformedFile)?;
    if file.day > LAST_DAY {
        return Err(Refusal::OutOfRange);
    }
    let mut day = PointDay::fresh();
    for call in calls_of(&file) {
        calls::make(&mut day, &call)?;
    }
    Ok((file.day, day))
}

/// What `dayreport` prints.
pub fn report(bytes: &[u8]) -> String {
    let mut run = Run::default();
    match read(bytes) {
        Err(refusal) => run.refused(refusal),
        Ok((number, day)) => {
            let point =
                [number, day.net().unwrap(), day.consumption(), day.losses(), day.balance()];
            run.named("point", &point);
            for slot in day.users() {
                let (consumption, losses) = (sum(&slot.consumption), sum(&slot.losses));
                let balance = sum(&slot.balance);
                let figures = [slot.number, consumption, losses, balance, slot.whole_amount()];
                run.named("user", &figures);
            }
        }
    }
    run.text
}

/// The program `dayreport`.
pub fn run(input: &[u8]) -> Run {
    Run { text: report(input), operations: 1 }
}
