//! The program `prorations`: splits of document 01, "Proration", from standard input.
//!
//! A case is i64 amount, u16 n, n times u32 weight, n times u32 key; it prints the n shares.

use std::collections::HashSet;

use crate::bytes::{Reader, Writer};
use crate::limits::{MAX_AMOUNT, MAX_ENERGY, MAX_INPUT, MAX_PERIOD};
use crate::proration::{prorate, Party};
use crate::run::Run;

#[derive(Clone, Debug)]
pub struct Case {
    pub amount: i64,
    pub parties: Vec<(u32, u32)>,
}

impl Case {
    pub fn write(&self, out: &mut Writer) {
        out.i64(self.amount);
        out.u16(self.parties.len() as u16);
        for &(weight, _) in &self.parties {
            out.u32(weight);
        }
        for &(_, key) in &self.parties {
            out.u32(key);
        }
    }

    /// The next case, or `None` if it is out of range or cut short.
    fn read(input: &mut Reader) -> Option<Case> {
        let amount = input.i64()?;
        let count = input.u16()? as usize;
        if (amount as i128).abs() > MAX_ENERGY || count == 0 || count > MAX_PERIOD {
            return None;
        }
        let mut weights = Vec::new();
        for _ in 0..count {
            weights.push(input.u32()?);
        }
        let mut keys = Vec::new();
        for _ in 0..count {
            keys.push(input.u32()?);
        }
        if weights.iter().any(|&weight| weight as i128 > MAX_AMOUNT) {
            return None;
        }
        let distinct: HashSet<u32> = keys.iter().copied().collect();
        if distinct.len() < keys.len() {
            return None;
        }
        Some(Case { amount, parties: weights.into_iter().zip(keys).collect() })
    }

    pub fn shares(&self) -> Vec<i128> {
        let parties: Vec<Party> = self
            .parties
            .iter()
            .map(|&(weight, key)| Party { weight: weight as i128, key: key as i128 })
            .collect();
        prorate(self.amount as i128, &parties)
    }
}

pub fn run(input: &[u8]) -> Run {
    let mut run = Run::default();
    if input.len() > MAX_INPUT {
        run.malformed();
        return run;
    }
    let mut reader = Reader::new(input);
    while !reader.at_end() {
        match Case::read(&mut reader) {
            Some(case) => {
                run.operations += 1;
                run.numbers(&case.shares());
            }
            None => {
                run.malformed();
                return run;
            }
        }
    }
    run
}
