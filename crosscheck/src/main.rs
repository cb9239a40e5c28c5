//! Commands: see ../README.md.

use std::io::{self, Read, Write};
use std::path::PathBuf;
use std::process::ExitCode;

use crosscheck::confirm::{self, Options};
use crosscheck::{damaged, day_file, estimate, prorations, replay, run::Run};

const USAGE: &str =
    "commands: prorations, replay, estimate, dayreport (standard input to standard output); \
    write [NAME..] [--ops OPERATIONS] [--into DIR]; confirm [NAME..] [--from DIR]; \
    damaged N SEED [--into DIR]";

fn main() -> ExitCode {
    let arguments: Vec<String> = std::env::args().skip(1).collect();
    match command(&arguments) {
        Ok(()) => ExitCode::SUCCESS,
        Err(message) => {
            eprintln!("crosscheck: {message}");
            ExitCode::FAILURE
        }
    }
}

fn command(arguments: &[String]) -> Result<(), String> {
    let (name, rest) = arguments.split_first().ok_or(USAGE)?;
    match name.as_str() {
        "prorations" => program(prorations::run),
        "replay" => program(replay::run),
        "estimate" => program(estimate::run),
        "dayreport" => program(day_file::run),
        "damaged" => damaged(rest),
        "write" => confirm::write(&options(rest)?),
        "confirm" => confirm::confirm(&options(rest)?),
        _ => Err(USAGE.to_string()),
    }
}

/// `damaged N SEED [--into DIR]`.
fn damaged(arguments: &[String]) -> Result<(), String> {
    let number = |i: usize| -> Result<u64, String> {
        let text = arguments.get(i).ok_or(USAGE)?;
        text.parse().map_err(|_| format!("{text} is no number"))
    };
    let (count, seed) = (number(0)?, number(1)?);
    let options = options(&arguments[2..])?;
    let folder = if options.make_folders { Some(options.root) } else { None };
    if let Some(folder) = &folder {
        crosscheck::files::make_folder(folder)?;
    }
    damaged::command(count as usize, seed, folder.as_deref())
}

fn options(arguments: &[String]) -> Result<Options, String> {
    let mut options = Options {
        root: PathBuf::from("."),
        repository: PathBuf::from("."),
        make_folders: false,
        names: Vec::new(),
        operations: Vec::new(),
    };
    let mut arguments = arguments.iter();
    while let Some(argument) = arguments.next() {
        let mut value = || arguments.next().cloned().ok_or(format!("{argument} needs a value"));
        match argument.as_str() {
            "--ops" => options.operations.push(value()?),
            "--from" => options.root = PathBuf::from(value()?),
            "--into" => {
                options.root = PathBuf::from(value()?);
                options.make_folders = true;
            }
            name if name.starts_with('-') => return Err(USAGE.to_string()),
            name => options.names.push(name.to_string()),
        }
    }
    Ok(options)
}

fn program(run: fn(&[u8]) -> Run) -> Result<(), String> {
    let mut input = Vec::new();
    io::stdin().read_to_end(&mut input).map_err(|error| error.to_string())?;
    io::stdout().write_all(run(&input).text.as_bytes()).map_err(|error| error.to_string())
}
