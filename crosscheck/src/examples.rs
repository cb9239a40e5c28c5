//! The folder `examples`: day files with what `dayreport` prints of them.

use std::path::Path;

use crate::calendar::LAST_DAY;
use crate::cases::file_builder::{FileBuilder, FileSection};
use crate::day_file::{self, HEADER, MAX_FILE, PAIR};
use crate::files;
use crate::limits::MAX_USERS;

pub struct Example {
    pub name: &'static str,
    /// What the file shows.
    pub shows: &'static str,
    pub bytes: Vec<u8>,
}

/// Outputs of more lines are named in the README and not printed there.
const LINES_SHOWN: usize = 8;

pub fn all() -> Vec<Example> {
    let mut list = well_formed();
    list.extend(malformed());
    list.extend(refused_by_calls());
    list
}

fn example(name: &'static str, shows: &'static str, bytes: Vec<u8>) -> Example {
    Example { name, shows, bytes }
}

fn changed(change: impl Fn(&mut FileBuilder)) -> Vec<u8> {
    let mut file = FileBuilder::e();
    change(&mut file);
    file.bytes()
}

fn with_pairs(change: impl Fn(&mut Vec<(u32, u32)>)) -> Vec<u8> {
    let file = FileBuilder::e();
    let mut pairs = file.pairs();
    change(&mut pairs);
    file.bytes_with(pairs.len() as u16, &pairs)
}

/// `count` users without lines, then one with a line.
fn sections(count: usize) -> Vec<FileSection> {
    let line = [(2, 700, 0)];
    let mut list: Vec<FileSection> =
        (1..=count as u16).map(|user| FileSection::new(1_000 * user, &[])).collect();
    list[count - 1] = FileSection::new(1_000 * count as u16, &line);
    list
}

fn well_formed() -> Vec<Example> {
    vec![
        example("E", "Document 01's file E.", FileBuilder::e().bytes()),
        example(
            "negative-balance",
            "More consumed than measured: the balance is negative, and so are two whole amounts.",
            changed(|file| {
                file.emission = 300;
                file.sections[0].lines = vec![(1, 300, 0)];
                file.sections[1].lines = vec![(4, 9, 0)];
            }),
        ),
        example(
            "users-not-in-order",
            "Users are reported in file order; the odd unit goes to the lower number.",
            changed(|file| {
                file.emission = 201;
                file.sections =
                    [30, 10, 20].map(|user| FileSection::new(user, &[(5, 20, 0)])).to_vec();
            }),
        ),
        example(
            "nobody-consumes",
            "Users without lines share the net equally.",
            changed(|file| {
                file.emission = 110;
                file.sections = [5, 6, 7].map(|user| FileSection::new(user, &[])).to_vec();
            }),
        ),
        example(
            "bytes-between-sections",
            "Bytes that no pair names are ignored.",
            changed(|file| {
                file.gaps = vec![3, 0, 5];
                file.tail = 4;
            }),
        ),
        example(
            "sixty-four-sections",
            "As many users as a point-day takes.",
            changed(|file| file.sections = sections(MAX_USERS)),
        ),
        example("largest-file", "65,536 bytes: three users with 9,355 lines.", largest_file(0)),
    ]
}

/// A file of 65,536 bytes full of lines, and some bytes more.
fn largest_file(more: usize) -> Vec<u8> {
    let users = 3;
    let room = MAX_FILE - HEADER - users * (PAIR + 2);
    let lines = room / 7;
    let mut file = FileBuilder { emission: 500_000_000, ..FileBuilder::e() };
    file.sections = (0..users)
        .map(|i| {
            let own = if i == 0 { lines - 2 * (lines / users) } else { lines / users };
            let line =
                |j: usize| (1 + (j % 5) as u8, (j * 37 % 5_000) as u32, (j * 11 % 10_001) as u16);
            FileSection { user: 900 - 100 * i as u16, lines: (0..own).map(line).collect() }
        })
        .collect();
    file.tail = MAX_FILE - file.bytes().len() + more;
    file.bytes()
}

fn malformed() -> Vec<Example> {
    vec![
        example("empty", "No bytes at all.", vec![]),
        example("wrong-mark", "The mark is `REP1`, and not `REp1`.", {
            let mut bytes = FileBuilder::e().bytes();
            bytes[2] = b'p';
            bytes
        }),
        example("cut-by-one-byte", "The last section ends past the file's end.", {
            let mut bytes = FileBuilder::e().bytes();
            bytes.pop();
            bytes
        }),
        example(
            "overlap-by-one-byte",
            "The second section begins on the last byte of the first.",
            with_pairs(|pairs| pairs[1].0 -= 1),
        ),
        example(
            "section-inside-the-pairs",
            "The first section begins on the last byte of the pairs.",
            with_pairs(|pairs| pairs[0].0 -= 1),
        ),
        example(
            "pairs-not-sorted",
            "The pairs are not sorted by offset.",
            with_pairs(|pairs| pairs.swap(0, 1)),
        ),
        example(
            "odd-section-length",
            "A section of 8 bytes: a user number and a part of a line.",
            with_pairs(|pairs| pairs[1].1 = 8),
        ),
        example(
            "length-past-32-bits",
            "Offset and length of the last section are 2^32 + 2 together.",
            with_pairs(|pairs| pairs[2].1 = (2u32).wrapping_sub(pairs[2].0)),
        ),
        example("more-pairs-than-bytes", "P is 65,535.", {
            let file = FileBuilder::e();
            file.bytes_with(u16::MAX, &file.pairs())
        }),
        example("one-byte-too-many", "65,537 bytes.", largest_file(1)),
        example("malformed-and-day-out-of-range", "Malformed comes before the day's range.", {
            let file = FileBuilder { day: u32::MAX, ..FileBuilder::e() };
            let mut pairs = file.pairs();
            pairs[2].1 = 0;
            file.bytes_with(3, &pairs)
        }),
    ]
}

fn refused_by_calls() -> Vec<Example> {
    vec![
        example(
            "no-section",
            "Well-formed with P 0: allot finds no user.",
            changed(|file| file.sections.clear()),
        ),
        example(
            "sixty-five-sections",
            "The 65th user.",
            changed(|file| file.sections = sections(MAX_USERS + 1)),
        ),
        example(
            "user-joined-twice",
            "A second section of user 7.",
            changed(|file| file.sections[2].user = 7),
        ),
        example("user-zero", "User numbers begin at 1.", changed(|file| file.sections[1].user = 0)),
        example("unknown-kind", "Kind 6.", changed(|file| file.sections[1].lines[0].0 = 6)),
        example(
            "unknown-kind-then-user-joined-twice",
            "The lines of a section come before the next section's join.",
            changed(|file| {
                file.sections[0].lines[0].0 = 9;
                file.sections[1].user = 7;
            }),
        ),
        example(
            "coefficient-out-of-range",
            "Coefficient 10,001.",
            changed(|file| file.sections[2].lines[0].2 = 10_001),
        ),
        example(
            "downstream-above-emission",
            "Downstream emission above emission.",
            changed(|file| file.downstream = file.emission + 1),
        ),
        example("day-after-2099", "Day 30,681.", changed(|file| file.day = LAST_DAY as u32 + 1)),
        example(
            "sum-above-the-limit",
            "Consumption and losses are 1,000,000,001 together.",
            changed(|file| {
                file.sections[0].lines = vec![(1, 999_999_798, 0)];
            }),
        ),
    ]
}

fn readme() -> String {
    let mut text = String::from(
        "# Examples\n\n`day.c` is a first program in C, and `rust/examples/day.rs` the same in Rust: a day from its \
         lines to its\ninventory and its revision. Both print `day.out`.\n\n## Day files\n\nWhat `dayreport` prints \
         of each file, also in NAME.out. The files and this page are written by\n`crosscheck write` and \
         checked by `crosscheck confirm`.\n",
    );
    for example in all() {
        let report = day_file::report(&example.bytes);
        let lines = report.lines().count();
        text.push_str(&format!("\n**{}.rep**: {}\n", example.name, example.shows));
        if lines <= LINES_SHOWN {
            text.push_str(&format!("\n```\n{report}```\n"));
        } else {
            text.push_str(&format!("{lines} lines, in {}.out.\n", example.name));
        }
    }
    text
}

/// The files of the folder, by name.
fn contents() -> Vec<(String, Vec<u8>)> {
    let mut list = vec![("README.md".to_string(), readme().into_bytes())];
    for example in all() {
        let report = day_file::report(&example.bytes);
        list.push((format!("{}.rep", example.name), example.bytes));
        list.push((format!("{}.out", example.name), report.into_bytes()));
    }
    list
}

pub fn write(root: &Path) -> Result<(), String> {
    let folder = root.join("examples");
    files::make_folder(&folder)?;
    for (name, bytes) in contents() {
        files::write(&folder.join(name), &bytes)?;
    }
    println!("examples: {} files written", all().len());
    Ok(())
}

pub fn confirm(root: &Path) -> Result<(), String> {
    let folder = root.join("examples");
    for (name, bytes) in contents() {
        let path = folder.join(name);
        files::compare(&path, &files::read(&path)?, &bytes)?;
    }
    println!("examples: {} files confirmed", all().len());
    Ok(())
}
