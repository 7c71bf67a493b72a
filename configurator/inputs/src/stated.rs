//! The cases with stated answers, in `tests/data`.

use std::fs;
use std::path::{Path, PathBuf};

use plain::sheet::Sheet;

/// A folder of `tests/data`.
#[must_use]
pub fn data(folder: &str) -> PathBuf {
    Path::new(concat!(env!("CARGO_MANIFEST_DIR"), "/../tests/data")).join(folder)
}

/// The bytes of a file of `tests/data`.
///
/// # Panics
///
/// The file cannot be read.
#[must_use]
pub fn bytes(folder: &str, file: &str) -> Vec<u8> {
    let path = data(folder).join(file);
    fs::read(&path).unwrap_or_else(|error| panic!("{}: {error}", path.display()))
}

/// The names, in order, of the cases in a folder of `tests/data`: its files that end so, without
/// the ending.
///
/// # Panics
///
/// The folder cannot be read.
#[must_use]
pub fn cases(folder: &str, ending: &str) -> Vec<String> {
    let mut names: Vec<String> = fs::read_dir(data(folder))
        .expect("the folder of cases is there")
        .map(|entry| entry.expect("the folder can be read").file_name())
        .filter_map(|file| Some(file.to_str()?.strip_suffix(ending)?.to_owned()))
        .collect();
    names.sort();
    names
}

/// The splits that the oracle's walk over a sheet tries at most, which says how long it takes: it splits
/// at most once at each core but the last and once a task, and tries each multiple of the grain below C.
#[must_use]
pub fn candidates(sheet: &Sheet) -> u64 {
    let grain = sheet.machine.grain;
    let tries = sheet.tasks.iter().map(|t| (t.times.budget - 1) / grain);
    let splits = (sheet.machine.cores - 1).min(sheet.tasks.len() as u64);
    splits * tries.max().unwrap_or(0)
}
