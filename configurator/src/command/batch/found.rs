//! The sheets of a folder, and what is named like one and is none. Nothing is opened: reading a FIFO
//! would wait for ever, and reading a device may do anything.

use crate::command::Failure;
use std::fs::{self, FileType};
use std::os::unix::ffi::OsStrExt;
use std::os::unix::fs::FileTypeExt;
use std::path::{Path, PathBuf};

/// What a folder has. All names are below the folder, in their order.
#[derive(Debug, Default)]
pub struct Found {
    /// The sheets.
    pub sheets: Vec<PathBuf>,
    /// What is named like a sheet and cannot be one, and with `-r` what is not gone into; each with what
    /// it is.
    pub skipped: Vec<(PathBuf, &'static str)>,
    /// Files that would be sheets if letters had no case.
    pub mentioned: Vec<PathBuf>,
    /// Folders that cannot be read, each with the cause.
    pub unread: Vec<(PathBuf, String)>,
}

/// Looks a folder through, and with `deep` the folders in it. What is hidden is left out, and links to
/// folders are not gone through.
///
/// # Errors
///
/// The folder itself cannot be read.
pub fn find(folder: &Path, deep: bool) -> Result<Found, Failure> {
    let mut found = Found::default();
    let mut folders = Vec::new();
    let here = Path::new("");
    let failed = |error| Failure::of(folder, &error);
    found
        .look(folder, here, deep, &mut folders)
        .map_err(failed)?;
    while let Some(inner) = folders.pop() {
        if let Err(error) = found.look(folder, &inner, deep, &mut folders) {
            found.unread.push((inner, error.to_string()));
        }
    }
    found.sheets.sort();
    found.skipped.sort();
    found.mentioned.sort();
    found.unread.sort();
    Ok(found)
}

impl Found {
    /// Looks one folder through; those in it that are gone into are put to `folders`.
    fn look(
        &mut self,
        top: &Path,
        inner: &Path,
        deep: bool,
        folders: &mut Vec<PathBuf>,
    ) -> std::io::Result<()> {
        for entry in fs::read_dir(top.join(inner))? {
            let entry = entry?;
            let name = inner.join(entry.file_name());
            if entry.file_name().as_bytes().starts_with(b".") {
                continue;
            }
            let linked = entry.file_type()?;
            // a link is what it leads to; where it leads nowhere, reading it tells so
            let kind = fs::metadata(top.join(&name)).map_or(linked, |there| there.file_type());
            let ending = name.extension().unwrap_or_default();
            if kind.is_dir() && deep && !linked.is_symlink() {
                folders.push(name);
            } else if ending == "sheet" {
                match no_file(kind, linked) {
                    Some(what) => self.skipped.push((name, what)),
                    None => self.sheets.push(name),
                }
            } else if kind.is_dir() && deep {
                self.skipped.push((name, "a link to a folder"));
            } else if kind.is_file() && ending.eq_ignore_ascii_case("sheet") {
                self.mentioned.push(name);
            }
        }
        Ok(())
    }
}

/// What something is that can be no sheet.
fn no_file(kind: FileType, linked: FileType) -> Option<&'static str> {
    if kind.is_dir() && linked.is_symlink() {
        Some("a link to a folder")
    } else if kind.is_dir() {
        Some("a folder")
    } else if kind.is_fifo() {
        Some("a FIFO")
    } else if kind.is_socket() {
        Some("a socket")
    } else if kind.is_block_device() || kind.is_char_device() {
        Some("a device")
    } else {
        None
    }
}
