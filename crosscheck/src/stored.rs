//! The stored cases of the programs: what `write` writes and `confirm` confirms.

use std::path::{Path, PathBuf};

use crate::cases::estimate::Operations as EstimateOperations;
use crate::cases::file_builder::FileBuilder;
use crate::cases::{self, replay::Operations as ReplayOperations};
use crate::files;
use crate::run::Run;
use crate::{day_file, estimate, prorations, replay};

/// A program, and the standard inputs that may be stored for it.
pub struct Program {
    pub name: &'static str,
    pub run: fn(&[u8]) -> Run,
    pub inputs: Vec<Input>,
}

/// The operations that an input uses, and the input, made from the vectors' folder.
pub struct Input {
    pub operations: &'static str,
    pub make: fn(&Path) -> Result<Vec<u8>, String>,
}

pub const ALL: &str = "all";

pub fn programs() -> Vec<Program> {
    vec![
        Program {
            name: "prorations",
            run: prorations::run,
            inputs: vec![Input { operations: ALL, make: |_| Ok(cases::prorations::stdin()) }],
        },
        Program {
            name: "replay",
            run: replay::run,
            inputs: vec![
                Input {
                    operations: ALL,
                    make: |vectors| cases::replay::lists(ReplayOperations::All, vectors),
                },
                Input {
                    operations: "basic",
                    make: |vectors| cases::replay::lists(ReplayOperations::Basic, vectors),
                },
            ],
        },
        Program {
            name: "replay_loads",
            run: replay::run,
            inputs: vec![
                Input {
                    operations: ALL,
                    make: |vectors| cases::replay::loads(ReplayOperations::All, vectors),
                },
                Input {
                    operations: "basic",
                    make: |vectors| cases::replay::loads(ReplayOperations::Basic, vectors),
                },
            ],
        },
        Program {
            name: "estimate",
            run: estimate::run,
            inputs: vec![
                Input {
                    operations: ALL,
                    make: |_| Ok(cases::estimate::own(EstimateOperations::All)),
                },
                Input {
                    operations: "supply",
                    make: |_| Ok(cases::estimate::own(EstimateOperations::Supply)),
                },
            ],
        },
        Program {
            name: "estimate_vectors",
            run: estimate::run,
            inputs: vec![
                Input {
                    operations: ALL,
                    make: |vectors| cases::estimate::vectors(EstimateOperations::All, vectors),
                },
                Input {
                    operations: "supply",
                    make: |vectors| cases::estimate::vectors(EstimateOperations::Supply, vectors),
                },
            ],
        },
        Program {
            name: "estimate_arrivals",
            run: estimate::run,
            inputs: vec![Input { operations: ALL, make: cases::estimate::arrivals }],
        },
        Program {
            name: "dayreport",
            run: day_file::run,
            inputs: vec![Input { operations: ALL, make: |_| Ok(FileBuilder::e().bytes()) }],
        },
    ]
}

impl Program {
    pub fn folder(&self, root: &Path) -> PathBuf {
        root.join("crates").join(self.name)
    }

    /// The input of the first of `operations` that this program has, or of all.
    pub fn input(&self, operations: &[String]) -> &Input {
        let asked = |input: &&Input| operations.iter().any(|name| name == input.operations);
        self.inputs.iter().find(asked).unwrap_or(&self.inputs[0])
    }

    pub fn write(&self, root: &Path, input: &Input, vectors: &Path) -> Result<(), String> {
        let folder = self.folder(root);
        let stdin = (input.make)(vectors)?;
        let run = (self.run)(&stdin);
        files::write(&folder.join("stdin"), &stdin)?;
        files::write(&folder.join("stdout"), run.text.as_bytes())?;
        println!("{}: {} written", self.name, operations(run.operations));
        Ok(())
    }

    /// Works the stored cases out again.
    pub fn confirm(&self, root: &Path, vectors: &Path) -> Result<(), String> {
        let folder = self.folder(root);
        let stdin = files::read(&folder.join("stdin"))?;
        let kind = self.operations_of(&stdin, vectors)?;
        let run = (self.run)(&stdin);
        let stdout = files::read(&folder.join("stdout"))?;
        files::compare(&folder.join("stdout"), &stdout, run.text.as_bytes())?;
        let which = if kind == ALL { String::new() } else { format!(" ({kind} only)") };
        println!("{}: {} confirmed{which}", self.name, operations(run.operations));
        Ok(())
    }

    /// Which input is stored.
    fn operations_of(&self, stdin: &[u8], vectors: &Path) -> Result<&'static str, String> {
        for input in &self.inputs {
            if (input.make)(vectors)? == stdin {
                return Ok(input.operations);
            }
        }
        Err(format!("{}: the stored stdin is not what `write` generates", self.name))
    }
}

fn operations(count: usize) -> String {
    if count == 1 {
        "1 operation".to_string()
    } else {
        format!("{count} operations")
    }
}
