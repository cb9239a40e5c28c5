//! The commands `write` and `confirm`.

use std::path::{Path, PathBuf};

use crate::examples;
use crate::files;
use crate::list_check;
use crate::stored::programs;
use crate::vectors;

pub struct Options {
    /// Where the folder `crates` is.
    pub root: PathBuf,
    /// The repository's root, with `crosscheck/vectors`.
    pub repository: PathBuf,
    /// Whether missing folders are made.
    pub make_folders: bool,
    /// What is meant: programs, `examples`, `vectors`, `book`; all if empty.
    pub names: Vec<String>,
    /// The operations to store, where a program has a choice.
    pub operations: Vec<String>,
}

impl Options {
    fn vectors(&self) -> PathBuf {
        self.repository.join("crosscheck").join("vectors")
    }

    /// Every name and every choice of operations must be known.
    fn check(&self, others: &[&str]) -> Result<(), String> {
        let programs = programs();
        let known = |name: &str| {
            others.contains(&name) || programs.iter().any(|program| program.name == name)
        };
        if let Some(name) = self.names.iter().find(|name| !known(name)) {
            return Err(format!("{name}: no such program"));
        }
        let choices: Vec<&str> = programs
            .iter()
            .flat_map(|program| &program.inputs)
            .map(|input| input.operations)
            .collect();
        match self.operations.iter().find(|asked| !choices.contains(&asked.as_str())) {
            Some(asked) => Err(format!("--ops {asked}: no such choice of operations")),
            None => Ok(()),
        }
    }

    fn means(&self, name: &str) -> bool {
        self.names.is_empty() || self.names.iter().any(|asked| asked == name)
    }
}

pub fn write(options: &Options) -> Result<(), String> {
    options.check(&["examples"])?;
    for program in programs() {
        if !options.means(program.name) {
            continue;
        }
        let folder = program.folder(&options.root);
        if options.make_folders {
            files::make_folder(&folder)?;
        }
        if folder.is_dir() {
            let input = program.input(&options.operations);
            program.write(&options.root, input, &options.vectors())?;
        } else {
            skipped(program.name, &folder);
        }
    }
    if options.means("examples") {
        examples::write(&options.root)?;
    }
    Ok(())
}

pub fn confirm(options: &Options) -> Result<(), String> {
    options.check(&["examples", "vectors", "book"])?;
    for program in programs() {
        if !options.means(program.name) {
            continue;
        }
        let folder = program.folder(&options.root);
        if folder.is_dir() {
            program.confirm(&options.root, &options.vectors())?;
        } else {
            skipped(program.name, &folder);
        }
    }
    if options.means("examples") {
        examples::confirm(&options.root)?;
    }
    if options.means("vectors") {
        vectors::confirm(&options.vectors())?;
    }
    if options.means("book") {
        list_check::confirm()?;
    }
    Ok(())
}

fn skipped(name: &str, folder: &Path) {
    println!("{name}: skipped, there is no folder {}", folder.display());
}
