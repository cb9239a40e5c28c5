//! The files of crosscheck/vectors.

use std::fs;
use std::path::Path;

pub fn read(vectors: &Path, file: &str) -> Result<Vec<u8>, String> {
    let path = vectors.join(file);
    fs::read(&path).map_err(|error| format!("{}: {error}", path.display()))
}

/// The day files among them, in the order of their names.
pub fn day_files(vectors: &Path) -> Result<Vec<Vec<u8>>, String> {
    let folder = vectors.join("dayreport");
    let list = fs::read_dir(&folder).map_err(|error| format!("{}: {error}", folder.display()))?;
    let mut names: Vec<String> = list
        .filter_map(|entry| entry.ok()?.file_name().into_string().ok())
        .filter(|name| name.ends_with(".rep"))
        .collect();
    names.sort();
    names.iter().map(|name| read(&folder, name)).collect()
}
