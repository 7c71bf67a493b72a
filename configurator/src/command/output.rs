//! Where answers go: standard output, and files, which are written whole or not at all.

use super::files::shown;
use super::Failure;
use crate::ffi::{self, close};
use std::fs::{self, File, Metadata};
use std::io::{self, Write};
use std::os::unix::io::AsFd;
use std::path::{Path, PathBuf};
use tempfile::{Builder, TempDir};

/// Standard output. Rust's own is silent about one that cannot be written to at all.
pub enum Standard {
    /// It was open when the program began.
    Open(File),
    /// It was not, as behind `>&-`.
    Closed,
}

impl Standard {
    /// Standard output as it was when the program began.
    ///
    /// # Errors
    ///
    /// The process may open no more files.
    pub fn new() -> Result<Self, Failure> {
        if !ffi::output_was_open() {
            return Ok(Standard::Closed);
        }
        let opened = io::stdout().as_fd().try_clone_to_owned().map(File::from);
        opened
            .map(Standard::Open)
            .map_err(|error| Failure::of_output(&error))
    }

    /// Closes it.
    ///
    /// # Errors
    ///
    /// The system has not taken all that was written to it.
    pub fn close(self) -> Result<(), Failure> {
        match self {
            Standard::Open(file) => close(file).map_err(|error| Failure::of_output(&error)),
            Standard::Closed => Ok(()),
        }
    }
}

impl Write for Standard {
    fn write(&mut self, bytes: &[u8]) -> io::Result<usize> {
        match self {
            Standard::Open(file) => file.write(bytes),
            Standard::Closed => Err(io::Error::new(io::ErrorKind::Other, "it is closed")),
        }
    }

    fn flush(&mut self) -> io::Result<()> {
        Ok(())
    }
}

/// Writes a file whole or not at all.
///
/// # Errors
///
/// The file cannot be written. Then it is as it was.
pub fn write(path: &Path, bytes: &[u8]) -> Result<(), Failure> {
    prepare(path, bytes)?.place()
}

/// A file that is written and not yet in its place, so that several can be placed together.
pub struct Prepared<'a> {
    path: &'a Path,
    target: PathBuf,
    bytes: &'a [u8],
    /// The folder that it is written in; what is no ordinary file has none.
    beside: Option<TempDir>,
}

/// Writes a file inside a new folder beside its place. A link is followed; what is no ordinary file, as
/// `/dev/null`, is written to only when it is placed.
///
/// A file can be moved over one that may not be written, so the one that is there is opened first.
/// Root may open every file, so its permissions are looked at too.
///
/// The folder is `tempfile`'s, so its name is new and it goes whatever happens. The file in it is
/// ours: one that `tempfile` makes is for its owner's eyes alone, and stays so.
///
/// # Errors
///
/// The file cannot be written, or its place not be taken.
pub fn prepare<'a>(path: &'a Path, bytes: &'a [u8]) -> Result<Prepared<'a>, Failure> {
    let failed = |error: io::Error| Failure::of(path, &error);
    let told = |why: &str| Failure::new(format!("{}: {why}", shown(path)));
    let target = match fs::canonicalize(path) {
        Ok(target) => target,
        Err(_) if fs::symlink_metadata(path).is_ok() => {
            return Err(told("this is a link that leads nowhere"));
        }
        Err(_) => path.to_owned(),
    };
    let there = fs::metadata(&target).ok();
    let mut prepared = Prepared {
        path,
        target,
        bytes,
        beside: None,
    };
    match &there {
        Some(there) if there.is_dir() => {
            return Err(failed(io::Error::from_raw_os_error(ffi::EISDIR)))
        }
        Some(there) if !there.is_file() => return Ok(prepared),
        Some(there) if there.permissions().readonly() => {
            return Err(told("the file is read-only"));
        }
        Some(_) => {
            let opened = File::options().write(true).open(&prepared.target);
            drop(opened.map_err(failed)?);
        }
        None => {}
    }
    let named = prepared.target.parent().zip(prepared.target.file_name());
    let (folder, name) = named.ok_or_else(|| told("this is no file's name"))?;
    let here = folder.as_os_str().is_empty();
    let folder = if here { Path::new(".") } else { folder };
    let beside = Builder::new().prefix(".spardimple-").tempdir_in(folder);
    let beside = beside.map_err(|error| {
        let (folder, why) = (shown(folder), unplaced(&error));
        told(&format!("the folder {folder} cannot be written: {why}"))
    })?;
    put(&beside.path().join(name), bytes, there).map_err(failed)?;
    prepared.beside = Some(beside);
    Ok(prepared)
}

impl Prepared<'_> {
    /// Moves the file to its place.
    ///
    /// # Errors
    ///
    /// It cannot be moved there. Then what was there is as it was.
    pub fn place(self) -> Result<(), Failure> {
        let placed = match (&self.beside, self.target.file_name()) {
            (Some(beside), Some(name)) => fs::rename(beside.path().join(name), &self.target),
            _ => File::create(&self.target).and_then(|mut file| {
                file.write_all(self.bytes)?;
                close(file)
            }),
        };
        placed.map_err(|error| Failure::of(self.path, &error))
    }
}

/// Writes a new file, with the permissions of the one that is there.
fn put(path: &Path, bytes: &[u8], there: Option<Metadata>) -> io::Result<()> {
    let mut file = File::create(path)?;
    file.write_all(bytes)?;
    if let Some(there) = there {
        file.set_permissions(there.permissions())?;
    }
    file.sync_all()?;
    close(file)
}

/// The system's words for an error of `tempfile`, without the name of its folder behind them.
fn unplaced(error: &io::Error) -> String {
    let words = error.to_string();
    let system = words.split_once(" at path ").map(|(system, _)| system);
    system.unwrap_or(&words).to_owned()
}
