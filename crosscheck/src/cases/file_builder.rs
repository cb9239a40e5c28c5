//! Builds the bytes of day files, right or wrong.

use crate::bytes::Writer;
use crate::day_file::{HEADER, MARK, PAIR, SECTION_LINE, SECTION_USER};

/// A line: kind, consumption, coefficient.
pub type FileLine = (u8, u32, u16);

#[derive(Clone, Debug)]
pub struct FileSection {
    pub user: u16,
    pub lines: Vec<FileLine>,
}

impl FileSection {
    pub fn new(user: u16, lines: &[FileLine]) -> FileSection {
        FileSection { user, lines: lines.to_vec() }
    }

    pub fn length(&self) -> usize {
        SECTION_USER + SECTION_LINE * self.lines.len()
    }
}

/// A day file whose sections stand one after the other, each after some bytes that no pair names.
#[derive(Clone, Debug)]
pub struct FileBuilder {
    pub day: u32,
    pub emission: u32,
    pub downstream: u32,
    pub sections: Vec<FileSection>,
    /// Bytes before each section, 0 if the list is too short.
    pub gaps: Vec<usize>,
    /// Bytes after the last section.
    pub tail: usize,
}

impl FileBuilder {
    /// Document 01's file E.
    pub fn e() -> FileBuilder {
        FileBuilder {
            day: 152,
            emission: 1000,
            downstream: 100,
            sections: vec![
                FileSection::new(7, &[(1, 300, 1000), (3, 200, 0)]),
                FileSection::new(9, &[(5, 150, 2000)]),
                FileSection::new(12, &[(2, 50, 0)]),
            ],
            gaps: vec![],
            tail: 0,
        }
    }

    /// Offset and length of each section.
    pub fn pairs(&self) -> Vec<(u32, u32)> {
        let mut at = HEADER + PAIR * self.sections.len();
        let mut pairs = Vec::new();
        for (i, section) in self.sections.iter().enumerate() {
            at += self.gaps.get(i).unwrap_or(&0);
            pairs.push((at as u32, section.length() as u32));
            at += section.length();
        }
        pairs
    }

    pub fn bytes(&self) -> Vec<u8> {
        self.bytes_with(self.sections.len() as u16, &self.pairs())
    }

    /// The file with other pairs; the sections stay where they are.
    pub fn bytes_with(&self, count: u16, pairs: &[(u32, u32)]) -> Vec<u8> {
        let mut out = Writer::new();
        out.raw(MARK);
        out.u32(self.day);
        out.u32(self.emission);
        out.u32(self.downstream);
        out.u16(count);
        for &(offset, length) in pairs {
            out.u32(offset);
            out.u32(length);
        }
        for (i, section) in self.sections.iter().enumerate() {
            fill(*self.gaps.get(i).unwrap_or(&0), &mut out);
            out.u16(section.user);
            for &(kind, consumption, coefficient) in &section.lines {
                out.u8(kind);
                out.u32(consumption);
                out.u16(coefficient);
            }
        }
        fill(self.tail, &mut out);
        out.bytes
    }
}

/// Bytes that no pair names: "other bytes are ignored".
fn fill(count: usize, out: &mut Writer) {
    for i in 0..count {
        out.u8(0xA5 ^ i as u8);
    }
}
