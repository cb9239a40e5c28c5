//! Day files: document 01's E, and random ones.

use bench::Random;

/// User, then kind, consumption and coefficient of each line.
type Section = (u16, Vec<(u8, u32, u16)>);

const MOST_BYTES: usize = 65_536;
const EMISSION: u32 = 1_000_000_000;

pub fn e() -> Vec<u8> {
    let sections = [
        (7, vec![(1, 300, 1000), (3, 200, 0)]),
        (9, vec![(5, 150, 2000)]),
        (12, vec![(2, 50, 0)]),
    ];
    file(1_000, &sections)
}

/// 64 users with a line for each kind.
pub fn five_lines_each(random: &mut Random) -> Vec<u8> {
    let mut sections = users(random);
    for (_, lines) in &mut sections {
        lines.extend((1..=5).map(|kind| (kind, random.below(500_000) as u32, 1_000)));
    }
    file(EMISSION, &sections)
}

/// 64 users, and lines of random kinds as long as they fit.
pub fn full(random: &mut Random) -> Vec<u8> {
    let mut sections = users(random);
    for _ in 0..(MOST_BYTES - file(EMISSION, &sections).len()) / 7 {
        let at = random.below(64) as usize;
        let kind = 1 + random.below(5) as u8;
        let line = (
            kind,
            random.below(90_000) as u32,
            random.below(10_001) as u16,
        );
        sections[at].1.push(line);
    }
    file(EMISSION, &sections)
}

/// A full file whose last section ends a byte past the end.
pub fn cut(random: &mut Random) -> Vec<u8> {
    let mut bytes = full(random);
    bytes.pop();
    bytes
}

/// 64 users without lines, their numbers in a random order.
fn users(random: &mut Random) -> Vec<Section> {
    let mut sections: Vec<Section> = (1..=64).map(|i| (1_000 * i, vec![])).collect();
    for i in (1..sections.len()).rev() {
        sections.swap(i, random.below(i as u64 + 1) as usize);
    }
    sections
}

/// The file of these sections, one right after the other.
fn file(emission: u32, sections: &[Section]) -> Vec<u8> {
    let mut bytes = b"REP1".to_vec();
    for number in [152, emission, 100] {
        bytes.extend(number.to_le_bytes());
    }
    bytes.extend((sections.len() as u16).to_le_bytes());
    let mut offset = 18 + 8 * sections.len();
    for (_, lines) in sections {
        let length = 2 + 7 * lines.len();
        bytes.extend((offset as u32).to_le_bytes());
        bytes.extend((length as u32).to_le_bytes());
        offset += length;
    }
    for (user, lines) in sections {
        bytes.extend(user.to_le_bytes());
        for (kind, consumption, coefficient) in lines {
            bytes.push(*kind);
            bytes.extend(consumption.to_le_bytes());
            bytes.extend(coefficient.to_le_bytes());
        }
    }
    bytes
}
