//! The standard inputs of `estimate`, `estimate_vectors` and `estimate_arrivals`.

mod dates;
mod readings;
mod telemetered;
mod temperatures;
mod type_1;
mod type_2;

use std::path::Path;

use super::vector_files;
use crate::bytes::Writer;
use crate::estimate::Operation;
use crate::limits::{MAX_ENERGY, MAX_INPUT};
use crate::old_vectors;

/// An operation byte with no meaning: the last of the input, it ends the run as malformed.
const UNKNOWN: u8 = 255;

/// The greatest values that the formats hold.
const HUGE: i128 = u64::MAX as i128;
const HUGE_32: i128 = u32::MAX as i128;

/// Values at a bound and past it; `None` is a missing one.
const BOUNDS: [Option<i128>; 6] =
    [None, Some(0), Some(MAX_ENERGY), Some(MAX_ENERGY + 1), Some(1 << 63), Some(HUGE)];

/// Which operations the stored cases use.
#[derive(Clone, Copy, PartialEq, Eq)]
pub enum Operations {
    /// All.
    All,
    /// All but the spreading of a reading.
    Supply,
}

/// The stored input of `estimate`: our own cases.
pub fn own(operations: Operations) -> Vec<u8> {
    let mut cases: Vec<Operation> = Vec::new();
    dates::all(&mut cases);
    temperatures::all(&mut cases);
    telemetered::all(&mut cases);
    type_1::all(&mut cases);
    type_2::all(&mut cases);
    if operations == Operations::All {
        readings::all(&mut cases);
    }
    let mut out = Writer::new();
    cases.iter().for_each(|case| case.write(&mut out));
    ended(out)
}

/// The stored input of `estimate_vectors`.
pub fn vectors(operations: Operations, vectors: &Path) -> Result<Vec<u8>, String> {
    let mut out = Writer::new();
    out.raw(&old_vectors::read(vectors, "estimate-supply.in")?);
    if operations == Operations::All {
        out.raw(&old_vectors::read(vectors, "estimate-all.in")?);
    }
    Ok(ended(out))
}

/// The stored input of `estimate_arrivals`. An own value without its length ends it.
pub fn arrivals(vectors: &Path) -> Result<Vec<u8>, String> {
    let folder = vectors.join("requests").join("01");
    let mut out = Writer::new();
    out.raw(&vector_files::read(&folder, "estimate.in")?);
    out.raw(&vector_files::read(&folder.join("malformed"), "estimate-own-value-cut.in")?);
    Ok(held_to_the_limit(out))
}

fn ended(mut out: Writer) -> Vec<u8> {
    out.u8(UNKNOWN);
    held_to_the_limit(out)
}

fn held_to_the_limit(out: Writer) -> Vec<u8> {
    let length = out.bytes.len();
    assert!(length <= MAX_INPUT, "{length} bytes are too many for estimate");
    out.bytes
}
