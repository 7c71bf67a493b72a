//! Reading files: what is read is bounded. Names may be any bytes that the system allows.

use super::Failure;
use crate::text;
use std::fs::{self, File, Metadata};
use std::io::{self, Read, Seek};
use std::os::unix::ffi::OsStrExt;
use std::os::unix::fs::MetadataExt;
use std::os::unix::io::AsFd;
use std::path::Path;

pub use crate::forms::SHEET_MOST;

/// The bytes of a piece record.
pub const RECORD: usize = 28;
/// The bytes of the costs.
pub const COSTS: usize = 36;

/// The most records that are judged.
pub const RECORDS_MOST: usize = 79;

/// How a file is called in messages; what cannot be seen of its name is written out.
#[must_use]
pub fn shown(path: &Path) -> String {
    if is_standard(path) {
        text::STANDARD.to_owned()
    } else if path == Path::new(text::STANDARD) {
        format!("./{}", text::STANDARD)
    } else {
        text::shown(path.as_os_str().as_bytes())
    }
}

/// A sheet's bytes. Of a longer file one byte more than a sheet may have is read: the library
/// refuses it all the same, however long it is.
///
/// # Errors
///
/// The file cannot be read.
pub fn sheet(path: &Path) -> Result<Vec<u8>, Failure> {
    beginning(open(path)?, path, SHEET_MOST + 1)
}

/// A sheet's bytes, where the answer goes into files.
///
/// # Errors
///
/// The file cannot be read, or is one that the answer would overwrite.
pub fn sheet_for<'a>(
    outs: impl IntoIterator<Item = &'a Path>,
    path: &Path,
) -> Result<Vec<u8>, Failure> {
    beginning_for(outs, path, SHEET_MOST + 1)
}

/// Sees to it that standard input, which can be read once, is not asked for in place of two files.
///
/// # Errors
///
/// Both are `-`, which is wrong use.
pub fn one_standard(files: [&Path; 2], called: &str) -> Result<(), Failure> {
    if files.into_iter().all(is_standard) {
        let why = format!("- can stand for one of the two {called} only");
        return Err(Failure::wrong_use(why));
    }
    Ok(())
}

/// At most so many bytes of a file, where the answer goes into files.
///
/// # Errors
///
/// The file cannot be read, or is one that the answer would overwrite.
pub fn beginning_for<'a>(
    outs: impl IntoIterator<Item = &'a Path>,
    path: &Path,
    most: usize,
) -> Result<Vec<u8>, Failure> {
    let file = open(path)?;
    for out in outs.into_iter().filter(|out| !is_standard(out)) {
        let there = identity(fs::metadata(out));
        if there.is_some() && there == identity(file.metadata()) {
            return Err(overwrites(out, path));
        }
    }
    beginning(file, path, most)
}

/// What an ordinary file is known by, whichever of its names led to it: its device and its number
/// there. Nothing is overwritten in what is no ordinary file, as a terminal.
#[must_use]
pub fn identity(there: io::Result<Metadata>) -> Option<(u64, u64)> {
    let there = there.ok().filter(Metadata::is_file)?;
    Some((there.dev(), there.ino()))
}

/// The wrong use that an output is an input.
#[must_use]
pub fn overwrites(out: &Path, input: &Path) -> Failure {
    Failure::wrong_use(format!(
        "{}: this would overwrite the input {}; choose another place for the output",
        shown(out),
        shown(input)
    ))
}

/// Bytes for a verdict, and how many the file has.
#[derive(Clone, Debug, PartialEq, Eq)]
pub struct Lent {
    /// What the library is lent.
    pub bytes: Vec<u8>,
    /// The length of the file. Of what is no ordinary file it is not known if it goes on behind what
    /// is ever judged.
    pub length: Option<u64>,
}

/// The bytes of nine costs, or one byte more, which is refused however many follow.
///
/// # Errors
///
/// The file cannot be read.
pub fn costs(path: &Path) -> Result<Lent, Failure> {
    lent(path, COSTS)
}

/// The bytes of piece records. Of a file of more than 80 records whole records are left out behind the
/// 80th: what is lent then has too many records still, or as before a length that is no multiple of 28,
/// and the library's answer depends on nothing else. Where the length is not known, 80 records are lent.
///
/// # Errors
///
/// The file cannot be read.
pub fn records(path: &Path) -> Result<Lent, Failure> {
    let most = (RECORDS_MOST + 1) * RECORD;
    let mut lent = lent(path, most)?;
    if lent.bytes.len() > most {
        let over = lent.length.map_or(0, |length| length - most as u64);
        let over = usize::try_from(over % RECORD as u64).unwrap_or(0);
        lent.bytes.resize(most + over, 0);
    }
    Ok(lent)
}

/// So many bytes of a file and where there are more, one of these. No more is read: an ordinary file
/// tells its length.
fn lent(path: &Path, most: usize) -> Result<Lent, Failure> {
    let failed = |error| Failure::of(path, &error);
    let mut file = open(path)?;
    let bytes = beginning(&mut file, path, most + 1)?;
    let mut length = Some(bytes.len() as u64);
    if bytes.len() > most {
        let there = file.metadata().map_err(failed)?;
        length = None;
        if there.is_file() {
            let behind = file.stream_position().map_err(failed)?;
            let more = there.len().saturating_sub(behind);
            length = Some(bytes.len() as u64 + more);
        }
    }
    Ok(Lent { bytes, length })
}

/// At most so many bytes of a file.
fn beginning(file: impl Read, path: &Path, most: usize) -> Result<Vec<u8>, Failure> {
    let mut bytes = Vec::new();
    file.take(most as u64)
        .read_to_end(&mut bytes)
        .map_err(|error| Failure::of(path, &error))?;
    Ok(bytes)
}

/// Opens a file to read it. Standard output that is the same file, as in `fmt a > a`, is wrong use: the
/// shell may have emptied it already, but nobody shall take that for an answer.
fn open(path: &Path) -> Result<File, Failure> {
    let opened = if is_standard(path) {
        input()
    } else {
        File::open(path)
    };
    let file = opened.map_err(|error| Failure::of(path, &error))?;
    let output = io::stdout().as_fd().try_clone_to_owned().map(File::from);
    let there = identity(output.and_then(|output| output.metadata()));
    if there.is_some() && there == identity(file.metadata()) {
        return Err(Failure::wrong_use(format!(
            "{}: standard output is this file itself; choose another place for the output",
            shown(path)
        )));
    }
    Ok(file)
}

/// Standard input, as a file. (Rust's own takes one that cannot be read for an empty one.)
///
/// # Errors
///
/// The process may open no more files.
pub fn input() -> io::Result<File> {
    io::stdin().as_fd().try_clone_to_owned().map(File::from)
}

/// Whether standard input, or where something is written standard output, is meant.
#[must_use]
pub fn is_standard(path: &Path) -> bool {
    path == Path::new("-")
}
