//! The proved desk program: where it is, and one run of it.

use super::answers::{Answer, Answers};
use crate::command::{files, Failure, Streams};
use std::env;
use std::ffi::OsString;
use std::fs::File;
use std::io::{self, Seek, Write};
use std::os::unix::io::AsRawFd;
use std::os::unix::process::ExitStatusExt;
use std::path::{Path, PathBuf};
use std::process::{self, Child, ChildStdin, ChildStdout, Command, Stdio};

/// A run of the program. It ends with this value, whatever happens.
pub struct Program {
    path: PathBuf,
    /// Who says that the program is there.
    named: &'static str,
    child: Child,
    answers: Answers<ChildStdout>,
    /// What the program opens as its sheet.
    _sheet: File,
}

impl Program {
    /// Starts the program on a sheet's bytes.
    ///
    /// The program reads the very bytes that were read here, from a file without a name: the sheet may
    /// be a pipe, which can be read once, or be saved anew at that moment.
    ///
    /// # Errors
    ///
    /// The program is missing or cannot be run, or there is no room for the sheet.
    pub fn start(sheet: &[u8]) -> Result<Self, Failure> {
        let (path, named) = find()?;
        let lent = lend(sheet).map_err(|error| {
            Failure::new(format!("the sheet cannot be lent to the desk: {error}"))
        })?;
        let emulator = set("SPARDIMPLE_EMULATOR").map(PathBuf::from);
        let runs = emulator.as_ref().unwrap_or(&path);
        let mut command = Command::new(runs);
        if emulator.is_some() {
            command.arg(&path);
        }
        let sheet = format!("/proc/{}/fd/{}", process::id(), lent.as_raw_fd());
        let started = command
            .arg(sheet)
            .stdin(Stdio::piped())
            .stdout(Stdio::piped())
            .spawn();
        let mut child = started.map_err(|error| Failure::of(runs, &error))?;
        let unread = || Failure::new(format!("{}: no answers", files::shown(&path)));
        let answers = Answers::new(child.stdout.take().ok_or_else(unread)?);
        Ok(Program {
            path,
            named,
            child,
            answers,
            _sheet: lent,
        })
    }

    /// Where edits are written to; when it is dropped, the program has all of them.
    pub fn edits(&mut self) -> Option<ChildStdin> {
        self.child.stdin.take()
    }

    /// Prints the next answer, and gives what it says; nothing behind the last one.
    ///
    /// # Errors
    ///
    /// The answer cannot be printed.
    pub fn answer(&mut self, streams: &mut Streams) -> Result<Option<Answer>, Failure> {
        self.answers.next(&self.path, streams)
    }

    /// Looks how the program has ended, once its answers have.
    ///
    /// # Errors
    ///
    /// It has not ended well.
    pub fn end(&mut self) -> Result<(), Failure> {
        let ended = self.child.wait();
        let ended = ended.map_err(|error| Failure::of(&self.path, &error))?;
        match (ended.code(), ended.signal()) {
            (Some(0), _) => Ok(()),
            (Some(code), _) => Err(self.ended(&format!("with exit status {code}"))),
            (None, signal) => Err(self.ended(&format!("by signal {}", signal.unwrap_or(0)))),
        }
    }

    /// The failure that the program has ended before its edits.
    pub fn early(&mut self) -> Failure {
        let ended = self.end();
        ended.map_or_else(|why| why, |()| self.ended("before its edits"))
    }

    /// The failure that the program has ended so.
    fn ended(&self, how: &str) -> Failure {
        let path = files::shown(&self.path);
        Failure::new(format!("{path}, {}, ended {how}", self.named))
    }
}

impl Drop for Program {
    /// The program may wait for edits, and whatever it would answer is lost.
    fn drop(&mut self) {
        let _ = self.child.kill();
        let _ = self.child.wait();
    }
}

/// Where the program is: `SPARDIMPLE_DESK` names it, else it is where it is installed beside this one,
/// `bin/spardimple` and `lib/spardimple/desk`. With it comes who says so.
fn find() -> Result<(PathBuf, &'static str), Failure> {
    let installed = || {
        let this = env::current_exe().ok()?;
        let prefix = this.parent().and_then(Path::parent)?;
        Some(prefix.join("lib/spardimple/desk"))
    };
    let named = set("SPARDIMPLE_DESK").map(PathBuf::from);
    let (who, to_do) = match named {
        Some(_) => (
            "which SPARDIMPLE_DESK names",
            "SPARDIMPLE_DESK names this file",
        ),
        None => (
            "which is installed beside this command",
            "it was looked for there, and SPARDIMPLE_DESK can name another place",
        ),
    };
    let program = named.or_else(installed).unwrap_or_default();
    if program.is_file() {
        return Ok((program, who));
    }
    Err(Failure::new(format!(
        "{}: the desk program is missing; {to_do}",
        files::shown(&program)
    )))
}

/// A variable of the environment that is not empty.
fn set(name: &str) -> Option<OsString> {
    env::var_os(name).filter(|value| !value.is_empty())
}

/// A file without a name that holds these bytes.
fn lend(bytes: &[u8]) -> io::Result<File> {
    let mut file = tempfile::tempfile()?;
    file.write_all(bytes)?;
    file.rewind()?;
    Ok(file)
}
