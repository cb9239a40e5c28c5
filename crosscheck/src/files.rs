//! Files with messages that name them.

use std::fs;
use std::path::{Path, PathBuf};

pub fn read(path: &Path) -> Result<Vec<u8>, String> {
    fs::read(path).map_err(|error| format!("{}: {error}", path.display()))
}

pub fn write(path: &Path, bytes: &[u8]) -> Result<(), String> {
    fs::write(path, bytes).map_err(|error| format!("{}: {error}", path.display()))
}

/// The files of a folder with this extension, by name.
pub fn in_folder(folder: &Path, extension: &str) -> Result<Vec<PathBuf>, String> {
    let failed = |error| format!("{}: {error}", folder.display());
    let mut paths = Vec::new();
    for entry in fs::read_dir(folder).map_err(failed)? {
        let path = entry.map_err(failed)?.path();
        if path.extension().is_some_and(|found| found == extension) {
            paths.push(path);
        }
    }
    paths.sort();
    Ok(paths)
}

/// Makes a folder and those above it.
pub fn make_folder(folder: &Path) -> Result<(), String> {
    fs::create_dir_all(folder).map_err(|error| format!("{}: {error}", folder.display()))
}

/// Compares what is stored with what was worked out, and names the first line that differs.
pub fn compare(path: &Path, stored: &[u8], worked_out: &[u8]) -> Result<(), String> {
    if stored == worked_out {
        return Ok(());
    }
    let stored = String::from_utf8_lossy(stored);
    let worked_out = String::from_utf8_lossy(worked_out);
    let (mut left, mut right) = (stored.split('\n'), worked_out.split('\n'));
    let mut line = 1;
    loop {
        let (one, other) = (left.next(), right.next());
        if one != other {
            let (one, other) = (one.unwrap_or("(end)"), other.unwrap_or("(end)"));
            let place = path.display();
            return Err(format!("{place}, line {line}: stored `{one}`, worked out `{other}`"));
        }
        line += 1;
    }
}
