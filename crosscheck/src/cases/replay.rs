//! The standard inputs of `replay` and `replay_loads`.

use std::path::Path;

use super::call_lists::{random_list, Style};
use super::hand_lists::{line, measure, stand_in};
use super::recorder::Recorder;
use super::{hand_lists, loaded_days, vector_files};
use crate::calls::{self, Call};
use crate::damaged::small_day_file;
use crate::examples;
use crate::inventory;
use crate::limits::{KINDS, MAX_INPUT, MAX_USERS};
use crate::point_day::PointDay;
use crate::rng::Rng;

const SEED: u64 = 2;
const MAX_SMALL_FILE: usize = 200;

/// An operation byte with no meaning: the last of the input, it ends the run as malformed.
const UNKNOWN: u8 = 255;

/// Which operations the stored cases use.
#[derive(Clone, Copy, PartialEq, Eq)]
pub enum Operations {
    /// All.
    All,
    /// All but inventory and day file.
    Basic,
}

/// The stored input of `replay`: our lists of calls from a fresh point-day, inventories and day
/// files, then the vectors' day files, `replay-basic` and `replay-final`.
pub fn lists(operations: Operations, vectors: &Path) -> Result<Vec<u8>, String> {
    let all = operations == Operations::All;
    let mut own = Recorder::new(all);
    hand_lists::all(&mut own);
    random_lists(&mut own);
    inventories(&mut own);
    day_files(&mut own);
    if !all {
        return input(own, &["replay-basic.in"], vectors);
    }
    for bytes in vector_files::day_files(vectors)? {
        own.day_file(bytes);
    }
    input(own, &["replay-basic.in", "replay-final.in"], vectors)
}

/// The stored input of `replay_loads`: our point-days loaded as they are, then `replay-all`, which
/// is for the most part such point-days.
pub fn loads(operations: Operations, vectors: &Path) -> Result<Vec<u8>, String> {
    let all = operations == Operations::All;
    let mut own = Recorder::new(all);
    loaded_days::all(&mut own);
    let files: &[&str] = if all { &["replay-all.in"] } else { &[] };
    input(own, files, vectors)
}

/// Our own cases, then the vectors, each from a fresh point-day.
fn input(own: Recorder, files: &[&str], vectors: &Path) -> Result<Vec<u8>, String> {
    let mut bytes = own.bytes();
    for file in files {
        let mut fresh = Recorder::new(false);
        fresh.fresh();
        bytes.extend(fresh.bytes());
        bytes.extend(vector_files::read(vectors, file)?);
    }
    bytes.push(UNKNOWN);
    assert!(bytes.len() <= MAX_INPUT, "{} bytes are too many for replay", bytes.len());
    Ok(bytes)
}

fn random_lists(out: &mut Recorder) {
    let mut rng = Rng::new(SEED);
    for _ in 0..100 {
        let style = Style::random(&mut rng);
        let length = rng.pick(&[10, 20, 30, 40]);
        record(random_list(length, &style, &mut rng), out, &mut rng);
    }
    for count in [12, 66] {
        let style = Style::of(count, &mut rng);
        record(random_list(120, &style, &mut rng), out, &mut rng);
    }
}

/// The list from fresh, shown after most calls that may have changed the point-day, now and then
/// with its inventory in a buffer of just enough numbers, or one less or more.
fn record(list: Vec<Call>, out: &mut Recorder, rng: &mut Rng) {
    out.fresh();
    let mut day = PointDay::fresh();
    for call in list {
        let often =
            if matches!(call, Call::Join(_) | Call::Line(_) | Call::Edit(_)) { 4 } else { 1 };
        let _ = calls::make(&mut day, &call);
        out.call(call);
        if rng.one_in(often) {
            out.show();
        }
        if rng.one_in(8) {
            let enough = 5 * inventory::rows(&day).len();
            out.inventory((enough + rng.below(3)).saturating_sub(1));
        }
    }
    out.show();
}

/// Inventories of file E, of a stand-in, and of point-days that refuse one.
fn inventories(out: &mut Recorder) {
    out.fresh();
    out.inventory(0);
    out.calls([measure(1000, 100), Call::Join(9), Call::Join(7), Call::Join(12)]);
    out.calls([
        line(7, 1, 300, 1000),
        line(7, 3, 200, 0),
        line(9, 5, 150, 2000),
        line(12, 2, 50, 0),
    ]);
    out.inventory(30);
    out.call(Call::Allot);
    for length in [0, 5, 19, 20, 21, 33] {
        out.inventory(length);
    }
    out.calls([Call::StartFinal, line(12, 5, 7, 0)]);
    out.inventory(5);
    out.call(Call::Allot);
    out.inventory(5);
    out.calls([Call::StartFinal, Call::Allot]);
    out.inventory(14);
    out.inventory(15);
    // A balance alone makes a row; a revision makes none.
    out.fresh();
    out.calls([Call::Join(3), Call::Join(2), measure(1, 0), Call::Allot]);
    out.inventory(6);
    out.fresh();
    out.calls([measure(500, 0), stand_in(0, &[(4, 1), (5, 1)])]);
    out.inventory(0);
    out.inventory(2);
    // Of 64 users one has rows.
    out.fresh();
    for user in (1..=MAX_USERS as i128).rev() {
        out.call(Call::Join(user));
    }
    for kind in 1..=KINDS as i128 {
        out.call(line(33, kind, 1, 0));
    }
    out.calls([measure(2_000, 1_000), Call::Allot]);
    out.inventory(25);
    out.inventory(24);
}

/// The small files of `examples`, and random ones.
fn day_files(out: &mut Recorder) {
    let mut rng = Rng::new(SEED);
    let mut files: Vec<Vec<u8>> =
        examples::all().into_iter().map(|example| example.bytes).collect();
    files.extend((0..80).map(|_| small_day_file(&mut rng)));
    for bytes in files {
        if bytes.len() <= MAX_SMALL_FILE {
            out.day_file(bytes);
        }
    }
    out.show();
}
