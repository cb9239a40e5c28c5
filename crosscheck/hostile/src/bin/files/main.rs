//! Day files, valid and damaged, through the proved library beside the calculation: the same
//! status and bytes, no other byte written, and nothing at a refusal. See crosscheck/README.md.

mod proved;

use std::collections::BTreeMap;
use std::path::Path;
use std::process::ExitCode;

use crosscheck::damaged::DayFiles;
use crosscheck::refusal::Refusal;
use crosscheck::{day_file, files};
use hostile::fenced::Fenced;
use proved::ROOM;

/// Longer than any file here, and than any buffer.
const LONGEST_FILE: usize = 70_000;
const LONGEST_BUFFER: usize = ROOM + 2_000;

/// What the length holds before a call.
const NO_LENGTH: u64 = 0xC3C3_C3C3_C3C3_C3C3;

fn main() -> ExitCode {
    hostile::ended(run())
}

/// `[N [SEED]]`.
fn run() -> Result<(), String> {
    let (count, seed) = hostile::count_and_seed()?;
    let mut memory = Memory { file: Fenced::new(LONGEST_FILE), out: Fenced::new(LONGEST_BUFFER) };
    let mut answers: BTreeMap<String, usize> = BTreeMap::new();
    for (i, bytes) in DayFiles::new(seed).take(count).enumerate() {
        let report = day_file::report(&bytes);
        memory.check(i, &bytes, &report).map_err(|what| difference(i, &bytes, &report, &what))?;
        *answers.entry(answer(&report)).or_insert(0) += 1;
    }
    for (answer, count) in answers {
        println!("{answer}: {count} files");
    }
    println!("{count} files of seed {seed}: the same answers");
    Ok(())
}

/// `refused` with its number, or `point`.
fn answer(report: &str) -> String {
    let first = report.lines().next().unwrap_or_default();
    if first.starts_with("point") { "point" } else { first }.to_string()
}

struct Memory {
    file: Fenced,
    out: Fenced,
}

impl Memory {
    /// The library's answer to a file, in a buffer with the room and in one without it, where 14
    /// comes after the file's own refusal.
    fn check(&mut self, i: usize, bytes: &[u8], report: &str) -> Result<(), String> {
        let roomy = [ROOM, ROOM + 1, ROOM + i % 2_000][i % 3];
        let answer = day_file::read(bytes).map(|_| report.as_bytes());
        self.call(bytes, roomy, answer)?;
        let short = [ROOM - 1, 0, 1, report.len(), i % ROOM][i % 5];
        self.call(bytes, short, answer.and(Err(Refusal::BufferTooShort)))
    }

    /// One call: it gives the status, and writes what it should at the start of the buffer and its
    /// length, and nothing else.
    fn call(
        &mut self,
        bytes: &[u8],
        room: usize,
        answer: Result<&[u8], Refusal>,
    ) -> Result<(), String> {
        let file = self.file.last(bytes.len());
        file.copy_from_slice(bytes);
        for (i, byte) in self.out.all().iter_mut().enumerate() {
            *byte = untouched(i);
        }
        let mut written = NO_LENGTH;
        let status = proved::day_report(file, self.out.last(room), &mut written);

        let buffer = format!("a buffer of {room} bytes");
        let (number, length, text) = match answer {
            Ok(text) => (0, text.len() as u64, text),
            Err(refusal) => (refusal.number(), NO_LENGTH, &b""[..]),
        };
        if (status, written) != (number, length) {
            return Err(format!("in {buffer} status {status} and length {written}"));
        }
        if &self.out.last(room)[..text.len()] != text {
            let there = String::from_utf8_lossy(&self.out.last(room)[..text.len()]);
            return Err(format!("in {buffer} the library wrote: {there}"));
        }
        let all = self.out.all();
        let start = all.len() - room;
        let mut others = (0..start).chain(start + text.len()..all.len());
        if let Some(place) = others.find(|&place| all[place] != untouched(place)) {
            let place = place as i64 - start as i64;
            return Err(format!("in {buffer} byte {place} was written"));
        }
        if file != bytes {
            return Err("the file was written to".to_string());
        }
        Ok(())
    }
}

/// What a byte of the buffer holds before a call.
fn untouched(place: usize) -> u8 {
    0xC3 ^ place as u8
}

/// Writes the file out, and says what differs.
fn difference(i: usize, bytes: &[u8], report: &str, what: &str) -> String {
    let place = Path::new("target/hostile.rep");
    let written = match files::write(place, bytes) {
        Ok(()) => format!("its bytes are in {}", place.display()),
        Err(message) => message,
    };
    let head: Vec<String> = bytes.iter().take(256).map(|byte| format!("{byte:02x}")).collect();
    format!(
        "file {i}, {} bytes: {what}\nthe calculation gives: {report}\n{written}; it begins {}",
        bytes.len(),
        head.join(" ")
    )
}
