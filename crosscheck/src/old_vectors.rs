//! The vectors `estimate-supply` and `estimate-all`: operation 1 is in document 01's format there.

use std::path::Path;

use crate::bytes::{Reader, Writer};
use crate::cases::vector_files;
use crate::estimate::{read_history, read_holidays, read_optional, Operation};
use crate::replay::read_flag;

/// The operation whose format has changed.
const TELEMETERED: u8 = 1;
/// An arrival and a length with which every own value counts, as it did.
const ARRIVAL: u32 = 0;
const LENGTH: u32 = 1_440;

/// The operations of such a file as they are written now.
pub fn read(vectors: &Path, file: &str) -> Result<Vec<u8>, String> {
    let old = vector_files::read(vectors, file)?;
    with_arrivals(&old).ok_or(format!("{file}: an operation is not in document 01's format"))
}

/// An own value was a value alone. Nothing else changes.
fn with_arrivals(old: &[u8]) -> Option<Vec<u8>> {
    let mut input = Reader::new(old);
    let mut out = Writer::new();
    let mut copied = 0;
    while !input.at_end() {
        if old[input.at()] != TELEMETERED {
            Operation::read(&mut input)?;
        } else if let Some(end) = end_of_own_value(&mut input)? {
            out.raw(&old[copied..end]);
            out.u32(ARRIVAL);
            out.u32(LENGTH);
            copied = end;
        }
    }
    out.raw(&old[copied..]);
    Some(out.bytes)
}

/// Passes over a telemetered supply point; where the own value ends, if there is one.
fn end_of_own_value(input: &mut Reader) -> Option<Option<usize>> {
    input.u8()?;
    let _day = input.u32()?;
    read_holidays(input)?;
    let _reading = read_optional(input)?;
    let end = read_optional(input)?.map(|_own| input.at());
    let _toll_3_4 = read_flag(input)?;
    let _q_a = read_optional(input)?;
    let _q_d = read_optional(input)?;
    let _f_c = input.u32()?;
    read_history(input)?;
    Some(end)
}

#[cfg(test)]
mod tests {
    use super::*;
    use crate::estimate::run;

    /// On day 5, without holidays, history and anything else but what stands in the middle.
    fn point(middle: &[u8]) -> Vec<u8> {
        let start: [&[u8]; 3] = [&[TELEMETERED], &5u32.to_le_bytes(), &[0, 0]];
        [&start.concat(), middle, &[0, 0, 0], &750u32.to_le_bytes(), &[0, 0]].concat()
    }

    #[test]
    fn only_own_values_are_changed() {
        let value = 9u64.to_le_bytes();
        let reading = [&[1], &value[..], &[0]].concat();
        let own = [&[0, 1], &value[..]].concat();
        let own_now = [&own, &ARRIVAL.to_le_bytes()[..], &LENGTH.to_le_bytes()].concat();
        let zone = [7, 1, 0, 0, 0];
        let lines = |middle: [&[u8]; 3]| {
            [&point(middle[0])[..], &zone, &point(middle[1]), &point(middle[2]), &zone].concat()
        };
        let now = lines([&own_now, &reading, &[0, 0]]);
        assert_eq!(with_arrivals(&lines([&own, &reading, &[0, 0]])), Some(now.clone()));
        let answers = "telemetered 9 0\nzone 1\ntelemetered 9 0\nrefused 15\nzone 1\n";
        assert_eq!(run(&now).text, answers);
        assert_eq!(with_arrivals(&point(&own[..5])), None);
    }
}
