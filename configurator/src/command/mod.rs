//! The command for people, as one function from words to an exit status. Each subcommand has a file
//! of its own with a function `run`, from its arguments to how the run ended.
//!
//! Every figure that is printed stands in an answer of the proved library or in the sheet itself.

pub mod axis;
pub mod batch;
pub mod check;
pub mod cli;
pub mod columns;
pub mod core;
pub mod curve;
pub mod desk;
pub mod diff;
pub mod drawing;
pub mod fields;
pub mod files;
pub mod fmt;
pub mod html;
pub mod json;
pub mod layout;
pub mod lent;
pub mod new;
pub mod output;
pub mod page;
pub mod plan;
pub mod report;
pub mod show;
pub mod table;
pub mod verdict;
pub mod why;

use crate::diff::Diff;
use crate::explain::{self, Explained};
use crate::listing::Listing;
use crate::origin;
use crate::quoted::Sheet;
use crate::why::Why;
use crate::UnknownNumber;
use clap::error::ErrorKind;
use clap::ArgMatches;
use std::ffi::OsString;
use std::io::{self, Write};
use std::iter;
use std::path::Path;

/// The manual page, as the build has written it.
pub const MANUAL: &str = include_str!(concat!(env!("OUT_DIR"), "/spardimple.1"));

/// How a run ended, with its exit status. Of those that a sheet can end with the greater is the worse. The
/// last three are told by one or two commands alone: 4 and 5 by `verdict` and `why`, of one core, where they
/// are asked to, and 6 by `diff`.
#[derive(Clone, Copy, Debug, PartialEq, Eq, PartialOrd, Ord)]
pub enum Status {
    /// Planned or judged.
    Accepted = 0,
    /// Refused.
    Refused = 1,
    /// The words ask for nothing that there is.
    WrongUse = 2,
    /// A file could not be read or written.
    Failed = 3,
    /// The core is overloaded.
    Overloaded = 4,
    /// The core is undecided.
    Undecided = 5,
    /// A sheet of `diff` is refused, where 1 has another meaning.
    RefusedOfTwo = 6,
}

impl Status {
    /// Something moved: 1, by `diff` alone, as the system's own `diff` has it. In every other command 1 is a
    /// refusal, so it is the same variant; no command has both meanings.
    pub const MOVED: Status = Status::Refused;
}

/// Why a run ended without an answer.
#[derive(Clone, Debug, PartialEq, Eq)]
pub struct Failure {
    status: Status,
    /// The sentence that tells it, if there is anything to tell.
    why: Option<String>,
}

impl Failure {
    /// The failure that a sentence tells.
    #[must_use]
    pub fn new(why: String) -> Self {
        Failure {
            status: Status::Failed,
            why: Some(why),
        }
    }

    /// Wrong use that shows only when the files are looked at.
    #[must_use]
    pub fn wrong_use(why: String) -> Self {
        Failure {
            status: Status::WrongUse,
            why: Some(why),
        }
    }

    /// An error of the system about a file.
    #[must_use]
    pub fn of(path: &Path, error: &io::Error) -> Self {
        Failure::at(&files::shown(path), error)
    }

    /// An error of the system about standard output.
    #[must_use]
    pub fn of_output(error: &io::Error) -> Self {
        Failure::at("standard output", error)
    }

    /// An error of the system. A reader that is gone has what it wanted, as `head -1` has: the exit
    /// status is that of every output that is not written whole, but there is nothing to tell.
    fn at(name: &str, error: &io::Error) -> Self {
        let gone = error.kind() == io::ErrorKind::BrokenPipe;
        Failure {
            status: Status::Failed,
            why: (!gone).then(|| format!("{name}: {error}")),
        }
    }

    /// Tells the failure, and gives the exit status. Where nobody can hear it, the status still tells.
    pub fn tell(self, err: &mut dyn Write) -> Status {
        if let Some(why) = self.why {
            let _ = writeln!(err, "{why}");
        }
        self.status
    }
}

impl From<UnknownNumber> for Failure {
    fn from(unknown: UnknownNumber) -> Self {
        Failure::new(unknown.to_string())
    }
}

/// Where a run writes, and whether standard output takes colours.
pub struct Streams<'a> {
    /// Standard output.
    pub out: &'a mut dyn Write,
    /// Standard error.
    pub err: &'a mut dyn Write,
    /// Standard output is a terminal that may have colours.
    pub colour: bool,
    /// Standard error is a terminal.
    pub progress: bool,
}

impl Streams<'_> {
    /// Writes to standard output.
    fn print(&mut self, bytes: &[u8]) -> Result<Status, Failure> {
        let printed = self.out.write_all(bytes).and_then(|()| self.out.flush());
        match printed {
            Ok(()) => Ok(Status::Accepted),
            Err(error) => Err(Failure::of_output(&error)),
        }
    }

    /// Says something on standard error. Where nobody can hear it, the exit status still tells.
    fn say(&mut self, sentence: &str) {
        let _ = writeln!(self.err, "{sentence}");
    }

    /// How the run ended; a failure is told.
    fn end(&mut self, done: Result<Status, Failure>) -> Status {
        done.unwrap_or_else(|failure| failure.tell(self.err))
    }

    /// Writes to a file, or where there is none to standard output.
    fn deliver(&mut self, out: Option<&Path>, bytes: &[u8]) -> Result<Status, Failure> {
        match out {
            Some(path) if !files::is_standard(path) => {
                output::write(path, bytes).map(|()| Status::Accepted)
            }
            _ => self.print(bytes),
        }
    }
}

/// Runs the command on the words behind its name.
pub fn run(words: impl IntoIterator<Item = OsString>, streams: &mut Streams) -> Status {
    let name = OsString::from("spardimple");
    let command = cli::command().long_version(origin::VERSION);
    let given = command.try_get_matches_from(iter::once(name).chain(words));
    let done = match &given {
        Ok(given) => attempt(given, streams),
        Err(error) => answer_words(error, streams),
    };
    streams.end(done)
}

/// Help and the version go to standard output, wrong use to standard error.
fn answer_words(error: &clap::Error, streams: &mut Streams) -> Result<Status, Failure> {
    let text = error.to_string();
    match error.kind() {
        ErrorKind::DisplayHelp | ErrorKind::DisplayVersion => streams.print(text.as_bytes()),
        _ => {
            streams.say(text.trim_end());
            Ok(Status::WrongUse)
        }
    }
}

fn attempt(given: &ArgMatches, streams: &mut Streams) -> Result<Status, Failure> {
    match given.subcommand() {
        Some(("new", given)) => new::run(given, streams),
        Some(("plan", given)) => plan::run(given, streams),
        Some(("check", given)) => check::run(given, streams),
        Some(("fmt", given)) => fmt::run(given, streams),
        Some(("verdict", given)) => verdict::run(given, streams),
        Some(("why", given)) => why::run(given, streams),
        Some(("show", given)) => show::run(given, streams),
        Some(("report", given)) => report::run(given, streams),
        Some(("diff", given)) => diff::run(given, streams),
        Some(("desk", given)) => desk::run(given, streams),
        Some(("batch", given)) => batch::run(given, streams),
        Some(("completions", given)) => streams.print(&completions(given)),
        _ => streams.print(MANUAL.as_bytes()),
    }
}

/// What the library makes of a sheet.
pub enum Planned {
    /// Its listing.
    Listing(Vec<u8>),
    /// Its refusal, for people.
    Refused(Explained),
}

/// The library's answer to a sheet's bytes.
///
/// # Errors
///
/// The library answers a number that stands for nothing, which a proved library never does.
pub fn planned(sheet: &[u8]) -> Result<Planned, Failure> {
    Ok(match crate::plan(sheet)? {
        Ok(listing) => Planned::Listing(listing),
        Err(refusal) => Planned::Refused(explain::told(refusal, sheet)?),
    })
}

/// A listing's rows.
fn parsed(listing: &[u8]) -> Result<Listing<'_>, Failure> {
    Listing::parse(listing)
        .ok_or_else(|| Failure::new("the library's listing has no known form".into()))
}

/// A why listing's figures.
fn reasons(listing: &[u8]) -> Result<Why<'_>, Failure> {
    Why::parse(listing)
        .ok_or_else(|| Failure::new("the library's why listing has no known form".into()))
}

/// The figures of what moved.
fn moved(text: &[u8]) -> Result<Diff<'_>, Failure> {
    Diff::parse(text)
        .ok_or_else(|| Failure::new("the library's text of what moved has no known form".into()))
}

/// An accepted sheet's words.
fn quoted(sheet: &[u8]) -> Result<Sheet<'_>, Failure> {
    Sheet::parse(sheet).ok_or_else(|| Failure::new("the accepted sheet has no known form".into()))
}

/// The completions of a shell that the description of the arguments allows.
fn completions(given: &ArgMatches) -> Vec<u8> {
    let mut script = Vec::new();
    let shell = given.get_one::<String>("SHELL").map(|shell| shell.parse());
    if let Some(Ok::<clap_complete::Shell, _>(shell)) = shell {
        clap_complete::generate(shell, &mut cli::command(), "spardimple", &mut script);
    }
    script
}
