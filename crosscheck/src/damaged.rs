//! Day files for tests: valid ones, and ones damaged in every way that document 01's section
//! "Day file and inventory" and the calls behind it tell apart.

use std::collections::BTreeMap;
use std::path::Path;

use crate::calendar::LAST_DAY;
use crate::cases::file_builder::{FileBuilder, FileLine, FileSection};
use crate::day_file::{self, HEADER, MAX_FILE, PAIR, SECTION_LINE, SECTION_USER};
use crate::files;
use crate::limits::MAX_USERS;
use crate::rng::Rng;

/// The files of a seed, without end: the same seed gives the same files.
pub struct DayFiles {
    rng: Rng,
}

impl DayFiles {
    pub fn new(seed: u64) -> DayFiles {
        DayFiles { rng: Rng::new(seed) }
    }
}

impl Iterator for DayFiles {
    type Item = Vec<u8>;

    fn next(&mut self) -> Option<Vec<u8>> {
        Some(day_file(&mut self.rng))
    }
}

/// Small files only: at most some hundred bytes each.
pub fn small_day_file(rng: &mut Rng) -> Vec<u8> {
    let valid = valid_file(Size::Small, rng);
    damage(&valid, rng)
}

/// One in three files is as it should be.
fn day_file(rng: &mut Rng) -> Vec<u8> {
    let size = match rng.below(200) {
        0 => Size::Full,
        1..=4 => Size::Largest,
        5..=19 => Size::ManySections,
        20..=49 => Size::ManyLines,
        _ => Size::Small,
    };
    let valid = valid_file(size, rng);
    if rng.one_in(3) {
        valid.bytes()
    } else {
        damage(&valid, rng)
    }
}

/// The command `damaged`: writes the files and what `dayreport` prints of them into a folder, or
/// counts the answers.
pub fn command(count: usize, seed: u64, folder: Option<&Path>) -> Result<(), String> {
    let mut answers: BTreeMap<String, usize> = BTreeMap::new();
    for (i, bytes) in DayFiles::new(seed).take(count).enumerate() {
        let report = day_file::report(&bytes);
        if let Some(folder) = folder {
            files::write(&folder.join(format!("{i:06}.rep")), &bytes)?;
            files::write(&folder.join(format!("{i:06}.out")), report.as_bytes())?;
        }
        let first = report.lines().next().unwrap();
        let answer = if first.starts_with("point") { "point" } else { first };
        *answers.entry(answer.to_string()).or_insert(0) += 1;
    }
    for (answer, count) in answers {
        println!("{answer}: {count} files");
    }
    Ok(())
}

#[derive(Clone, Copy, PartialEq, Eq)]
enum Size {
    Small,
    ManyLines,
    ManySections,
    /// 65,536 bytes.
    Largest,
    /// 65,536 bytes, the last of them in a section: 64 users and all the lines that fit.
    Full,
}

fn valid_file(size: Size, rng: &mut Rng) -> FileBuilder {
    let sections = sections(size, rng);
    let count = sections.len();
    let emission = rng.pick(&[0, 1_000, 1_000_000, 1_000_000_000]);
    let mut file = FileBuilder {
        day: rng.pick(&[0, 152, LAST_DAY as u32]),
        emission,
        downstream: rng.between(0, emission as i128) as u32,
        sections,
        gaps: vec![],
        tail: 0,
    };
    if rng.one_in(3) {
        file.gaps = (0..count).map(|_| rng.below(4)).collect();
        file.tail = rng.below(9);
    }
    if size == Size::Largest {
        file.tail = 0;
        file.tail = MAX_FILE - file.bytes().len();
    }
    if size == Size::Full {
        (file.gaps, file.tail) = (vec![], 0);
        file.gaps = vec![MAX_FILE - file.bytes().len()];
    }
    file
}

fn sections(size: Size, rng: &mut Rng) -> Vec<FileSection> {
    let count = match size {
        Size::ManySections => rng.pick(&[63, 64, 64]),
        Size::Full => MAX_USERS,
        _ => 1 + rng.below(5),
    };
    let most_lines = match size {
        Size::Small => 4,
        Size::ManyLines => 200,
        Size::ManySections => 5,
        Size::Largest => 1_500,
        Size::Full => 0,
    };
    let scale = rng.pick(&[1, 20, 1_000, 90_000]);
    let mut sections: Vec<FileSection> = distinct_users(count, rng)
        .into_iter()
        .map(|user| {
            let lines = rng.below(most_lines + 1);
            FileSection { user, lines: (0..lines).map(|_| line(scale, rng)).collect() }
        })
        .collect();
    if size == Size::Full {
        fill_with_lines(&mut sections, scale, rng);
    }
    sections
}

/// As many lines as a file has room for, each in any section.
fn fill_with_lines(sections: &mut [FileSection], scale: u32, rng: &mut Rng) {
    let room = MAX_FILE - HEADER - (PAIR + SECTION_USER) * sections.len();
    for _ in 0..room / SECTION_LINE {
        let at = rng.below(sections.len());
        sections[at].lines.push(line(scale, rng));
    }
}

fn distinct_users(count: usize, rng: &mut Rng) -> Vec<u16> {
    let highest = rng.pick(&[2 * count as i128, 65_535]);
    let mut users = Vec::new();
    while users.len() < count {
        let user = rng.between(1, highest) as u16;
        if !users.contains(&user) {
            users.push(user);
        }
    }
    users
}

fn line(scale: u32, rng: &mut Rng) -> FileLine {
    let kind = rng.between(1, 5) as u8;
    let consumption = rng.between(0, scale as i128) as u32;
    (kind, consumption, rng.pick(&[0, 1_000, 9_999, 10_000]))
}

/// The file with one fault, or two.
fn damage(valid: &FileBuilder, rng: &mut Rng) -> Vec<u8> {
    let mut bytes = match rng.below(3) {
        0 => with_wrong_pairs(valid, rng),
        1 => with_wrong_values(valid, rng),
        _ => with_wrong_bytes(valid.bytes(), rng),
    };
    if rng.one_in(6) {
        bytes = with_wrong_bytes(bytes, rng);
    }
    bytes
}

fn with_wrong_bytes(mut bytes: Vec<u8>, rng: &mut Rng) -> Vec<u8> {
    match rng.below(9) {
        0 => bytes.truncate(rng.below(bytes.len().max(1))),
        1 => bytes.truncate(bytes.len().saturating_sub(1)),
        2 => bytes.truncate(rng.below(HEADER + PAIR + 2)),
        3 | 4 => {
            for _ in 0..1 + rng.below(3) {
                flip_bit(&mut bytes, rng);
            }
        }
        5 if bytes.len() >= 4 => {
            let mark: &[u8; 4] = &rng.pick(&[*b"REP2", *b"rep1", *b"REP\0", *b"1PER", *b"REPI"]);
            bytes[..4].copy_from_slice(mark);
        }
        6 => bytes.resize(rng.pick(&[MAX_FILE, MAX_FILE + 1, MAX_FILE + 1, MAX_FILE + 500]), 0),
        7 => {
            for byte in bytes.iter_mut().skip(4) {
                *byte = rng.next_u64() as u8;
            }
        }
        _ if bytes.len() > 2 => {
            let (one, other) = (rng.below(bytes.len()), rng.below(bytes.len()));
            bytes.swap(one, other);
        }
        _ => bytes.clear(),
    }
    bytes
}

fn flip_bit(bytes: &mut [u8], rng: &mut Rng) {
    if !bytes.is_empty() {
        // Half of the flips are in the header and the first pairs.
        let end = if rng.one_in(2) { bytes.len() } else { bytes.len().min(HEADER + 3 * PAIR) };
        let at = rng.below(end);
        bytes[at] ^= 1 << rng.below(8);
    }
}

/// Offsets and lengths that no file may have, or that just may.
fn with_wrong_pairs(valid: &FileBuilder, rng: &mut Rng) -> Vec<u8> {
    let mut pairs = valid.pairs();
    let mut count = pairs.len() as u16;
    let at = rng.below(pairs.len());
    let end = valid.bytes().len() as u32;
    let pairs_end = (HEADER + PAIR * pairs.len()) as u32;
    let (offset, length) = pairs[at];
    match rng.below(15) {
        0 => pairs.reverse(),
        1 => pairs[at].0 = offset - 1,
        2 => pairs[at].1 = length + rng.between(1, 7) as u32,
        3 => pairs[at].1 = length.saturating_sub(rng.between(1, 7) as u32),
        4 => pairs[at].1 = rng.pick(&[0, 1, 2, 3, 8, 9, u32::MAX]),
        5 => pairs[at].0 = rng.pick(&[0, HEADER as u32, pairs_end - 1, pairs_end, end, u32::MAX]),
        // The sum of the two is 2^32 and a little, which 32 bits would take for a little.
        6 => pairs[at] = (offset, 0u32.wrapping_sub(offset).wrapping_add(rng.pick(&[0, 2, 9]))),
        14 => pairs[at].1 = whole_length_past_32_bits(offset),
        7 => pairs[at] = (u32::MAX - rng.below(9) as u32, rng.pick(&[2, 9, 16])),
        8 => pairs[at] = (end - 1, 2),
        9 => pairs[at] = (end - 2, 2),
        10 => pairs[at] = pairs[rng.below(pairs.len())],
        11 => count += rng.pick(&[1, 1, 2, 100]),
        12 => count = rng.pick(&[0, 65_535, 8_190, 8_189]),
        _ => {
            let other = rng.below(pairs.len());
            pairs.swap(at, other);
        }
    }
    valid.bytes_with(count, &pairs)
}

/// The least length of a user number and whole lines that carries the section past 2^32.
fn whole_length_past_32_bits(offset: u32) -> u32 {
    let room = (1u64 << 32) - offset as u64;
    let mut length = room;
    while length % 7 != 2 {
        length += 1;
    }
    length.min(u32::MAX as u64) as u32
}

/// Values that the calls refuse, or just take.
fn with_wrong_values(valid: &FileBuilder, rng: &mut Rng) -> Vec<u8> {
    let mut file = valid.clone();
    let at = rng.below(file.sections.len());
    let energy = rng.pick(&[1_000_000_000, 1_000_000_001, u32::MAX]);
    let lines = &mut file.sections[at].lines;
    match rng.below(11) {
        0 => file.day = rng.pick(&[LAST_DAY as u32 + 1, u32::MAX]),
        1 => file.emission = energy,
        2 => file.downstream = file.emission + 1,
        3 => file.sections[at].user = 0,
        4 => {
            let twice = FileSection { user: file.sections[0].user, lines: vec![] };
            file.sections.push(twice);
        }
        5 => lines.push((rng.pick(&[0, 6, 255]), 1, 0)),
        6 => lines.push((1, energy, 0)),
        7 => lines.push((2, 1, rng.pick(&[10_000, 10_001, 65_535]))),
        8 => lines.extend([(1, 600_000_000, 0), (5, 399_000_000 + rng.below(2_000_000) as u32, 0)]),
        9 => file.sections.clear(),
        _ => {
            let wanted = rng.pick(&[64, 65, 66]);
            let mut user = 60_000;
            while file.sections.len() < wanted {
                if file.sections.iter().all(|section| section.user != user) {
                    file.sections.push(FileSection { user, lines: vec![] });
                }
                user += 1;
            }
        }
    }
    file.gaps.clear();
    file.bytes()
}

#[cfg(test)]
mod tests {
    use super::*;
    use crate::day_file::read;

    #[test]
    fn the_files_meet_every_answer_of_a_day_file() {
        let mut answers: BTreeMap<u8, usize> = BTreeMap::new();
        for bytes in DayFiles::new(1).take(3_000) {
            let number = read(&bytes).err().map_or(0, |refusal| refusal.number());
            *answers.entry(number).or_insert(0) += 1;
        }
        for number in [0, 2, 4, 5, 6, 8, 13] {
            assert!(answers.get(&number).is_some_and(|&count| count >= 5), "{number}: {answers:?}");
        }
        assert!(answers[&0] > 600, "{answers:?}");
    }

    #[test]
    fn the_files_meet_the_greatest_size_and_one_byte_more() {
        let files: Vec<Vec<u8>> = DayFiles::new(1).take(1_000).collect();
        let taken =
            |size| files.iter().filter(|file| file.len() == size && read(file).is_ok()).count();
        assert!(taken(MAX_FILE) > 0);
        assert_eq!(taken(MAX_FILE + 1), 0);
        assert!(files.iter().any(|file| file.len() == MAX_FILE + 1));
        let full = valid_file(Size::Full, &mut Rng::new(1));
        let last_ends = full.pairs().last().map(|&(offset, length)| (offset + length) as usize);
        assert_eq!((full.bytes().len(), last_ends), (MAX_FILE, Some(MAX_FILE)));
    }
}
