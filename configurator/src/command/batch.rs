//! `batch`: the plans of all sheets of a folder, several at a time, and a summary. A sheet that is
//! refused or cannot be read stops no other.

mod as_json;
mod found;
mod outputs;
mod summary;

use super::json::{self, Asked};
use super::{cli, files, output, parsed, planned, Failure, Planned, Status, Streams};
use crate::explain::Explained;
use crate::origin;
use clap::ArgMatches;
use found::Found;
use std::fs;
use std::path::{Path, PathBuf};
use std::sync::atomic::{AtomicUsize, Ordering};
use std::sync::mpsc;
use std::thread;

/// What became of a folder. All names are below the folder, in their order.
pub struct Batch {
    /// The sheets, each with what became of it.
    pub sheets: Vec<Outcome>,
    /// What was not opened, since it is no file, with what it is.
    pub skipped: Vec<(PathBuf, &'static str)>,
    /// Files that are no sheets by the case of their names alone.
    pub mentioned: Vec<PathBuf>,
    /// Folders that could not be read, with the cause.
    pub unread: Vec<(PathBuf, String)>,
}

/// What became of one sheet.
pub struct Outcome {
    /// Its name below the folder.
    pub name: PathBuf,
    /// What came of it.
    pub answer: Answer,
    /// Its SHA-256, if it was read whole.
    pub digest: Option<String>,
    /// A listing that was there before and is not of the sheet as it is now, or what is said beside
    /// the listing about an older one.
    pub older: Option<PathBuf>,
}

/// What came of a sheet.
pub enum Answer {
    /// It is planned.
    Planned {
        /// How many tasks it has.
        tasks: usize,
        /// How many pieces its plan has.
        pieces: usize,
    },
    /// It is refused.
    Refused(Explained),
    /// It was not read, or its listing not written.
    Failed {
        /// The cause.
        reason: String,
        /// The sentence that tells it, with the file's name.
        message: String,
    },
}

impl Outcome {
    /// The exit status that one sheet would have.
    #[must_use]
    pub fn status(&self) -> Status {
        match self.answer {
            Answer::Planned { .. } => Status::Accepted,
            Answer::Refused(_) => Status::Refused,
            Answer::Failed { .. } => Status::Failed,
        }
    }
}

impl Batch {
    /// The worst status of all.
    #[must_use]
    pub fn status(&self) -> Status {
        let unread = self.unread.iter().map(|_| Status::Failed);
        let statuses = self.sheets.iter().map(Outcome::status).chain(unread);
        statuses.max().unwrap_or(Status::Accepted)
    }

    /// Says what is wrong with each sheet and each folder, by its name from where the command runs.
    fn say(&self, folder: &Path, streams: &mut Streams) {
        for outcome in &self.sheets {
            match &outcome.answer {
                Answer::Planned { .. } => {}
                Answer::Refused(why) => {
                    let name = files::shown(&folder.join(&outcome.name));
                    streams.say(&why.message(&name));
                }
                Answer::Failed { message, .. } => streams.say(message),
            }
        }
        for (name, cause) in &self.unread {
            let name = files::shown(&folder.join(name));
            streams.say(&format!("{name}: {cause}"));
        }
    }
}

/// Plans every sheet of a folder; with `out`, each listing goes into that folder.
///
/// # Errors
///
/// The folder cannot be read, or the one for the listings not be made, or a listing would overwrite a
/// sheet. Then nothing is written.
pub fn run(given: &ArgMatches, streams: &mut Streams) -> Result<Status, Failure> {
    let folder = cli::needed(given, "DIR");
    let done = plan_all(given, &folder, streams);
    let asked = [Asked::new("folder", &folder, None)];
    json::told(given, "batch", &asked, done, streams)
}

fn plan_all(given: &ArgMatches, folder: &Path, streams: &mut Streams) -> Result<Status, Failure> {
    let quiet = given.get_flag("quiet");
    streams.progress &= !quiet;
    let found = found::find(folder, given.get_flag("recursive"))?;
    let out = cli::path(given, "out");
    let wanted = out.as_deref().map(|out| Wanted {
        out,
        origins: given.get_flag("origin"),
    });
    let batch = plan(folder, found, wanted.as_ref(), streams)?;
    if !quiet {
        batch.say(folder, streams);
    }
    let text = if given.get_flag("json") {
        as_json::text(folder, &batch)
    } else {
        summary::text(&batch, quiet)
    };
    streams.print(text.as_bytes())?;
    Ok(batch.status())
}

/// Which files are wanted.
struct Wanted<'a> {
    /// The folder where listings go.
    out: &'a Path,
    /// Whether it is said beside each what it came from.
    origins: bool,
}

impl Wanted<'_> {
    /// Where the listing of a sheet goes, by its name below the folder of the sheets.
    fn listing(&self, name: &Path) -> PathBuf {
        outputs::listing(self.out, name)
    }

    /// Writes a listing.
    fn write(&self, sheet: &Path, bytes: &[u8], listing: &[u8], to: &Path) -> Result<(), Failure> {
        to.parent().map_or(Ok(()), make)?;
        let prepared = output::prepare(to, listing)?;
        if !self.origins {
            return prepared.place();
        }
        let said = origin::beside(&files::shown(sheet), bytes, listing);
        let beside = origin::place(to);
        let said = output::prepare(&beside, said.as_bytes())?;
        prepared.place().and_then(|()| said.place())
    }
}

/// What becomes of all that was found.
fn plan(
    folder: &Path,
    found: Found,
    wanted: Option<&Wanted>,
    streams: &mut Streams,
) -> Result<Batch, Failure> {
    if let Some(wanted) = wanted {
        outputs::look(folder, &found.sheets, wanted)?;
        make(wanted.out)?;
    }
    let one = |name: &PathBuf| {
        let sheet = folder.join(name);
        let listing = wanted.map(|wanted| wanted.listing(name));
        let read = files::sheet(&sheet);
        let whole = (read.as_ref().ok()).filter(|bytes| bytes.len() <= files::SHEET_MOST);
        let digest = whole.map(|bytes| origin::digest(bytes));
        let answer = read.and_then(|bytes| attempt(&sheet, &bytes, wanted.zip(listing.as_deref())));
        let answer = answer.unwrap_or_else(|failure| failed(failure, &sheet, listing.as_deref()));
        let planned = matches!(answer, Answer::Planned { .. });
        Outcome {
            name: name.clone(),
            answer,
            digest,
            older: listing.and_then(|listing| {
                let said = wanted.map_or(false, |wanted| wanted.origins);
                let older = if planned {
                    origin::place(&listing)
                } else {
                    listing
                };
                (older.is_file() && !(planned && said)).then_some(older)
            }),
        }
    };
    Ok(Batch {
        sheets: each(&found.sheets, one, streams),
        skipped: found.skipped,
        mentioned: found.mentioned,
        unread: found.unread,
    })
}

/// What becomes of the sheets, in their order. As many threads as the machine has cores take one
/// after the other.
fn each(
    names: &[PathBuf],
    one: impl Fn(&PathBuf) -> Outcome + Sync,
    streams: &mut Streams,
) -> Vec<Outcome> {
    let next = AtomicUsize::new(0);
    let (sender, receiver) = mpsc::channel();
    let threads = thread::available_parallelism().map_or(1, usize::from);
    let mut outcomes: Vec<(usize, Outcome)> = thread::scope(|scope| {
        for _ in 0..threads.min(names.len()) {
            let (sender, next, one) = (sender.clone(), &next, &one);
            scope.spawn(move || {
                while let Some((at, name)) = {
                    let at = next.fetch_add(1, Ordering::Relaxed);
                    names.get(at).map(|name| (at, name))
                } {
                    let _ = sender.send((at, one(name)));
                }
            });
        }
        drop(sender);
        let counted = receiver.iter().enumerate();
        let outcomes = counted.map(|(done, outcome)| {
            progress(done + 1, names.len(), streams);
            outcome
        });
        outcomes.collect()
    });
    outcomes.sort_by_key(|(at, _)| *at);
    outcomes.into_iter().map(|(_, outcome)| outcome).collect()
}

/// What becomes of a sheet's bytes, whose listing may be wanted.
fn attempt(sheet: &Path, bytes: &[u8], to: Option<(&Wanted, &Path)>) -> Result<Answer, Failure> {
    Ok(match planned(bytes)? {
        Planned::Listing(listing) => {
            let rows = parsed(&listing)?;
            if let Some((wanted, to)) = to {
                wanted.write(sheet, bytes, &listing, to)?;
            }
            Answer::Planned {
                tasks: rows.tasks,
                pieces: rows.pieces.len(),
            }
        }
        Planned::Refused(why) => Answer::Refused(why),
    })
}

/// A sheet that was not read, or its listing not written.
fn failed(failure: Failure, sheet: &Path, listing: Option<&Path>) -> Answer {
    let gone = || "the reader of its listing has gone".to_owned();
    let message = failure.why.unwrap_or_else(gone);
    let behind = |path: &Path| message.strip_prefix(&format!("{}: ", files::shown(path)));
    let reason = match (behind(sheet), listing.and_then(behind)) {
        (Some(cause), _) => cause.to_owned(),
        (None, Some(cause)) => format!("its listing: {cause}"),
        (None, None) => message.clone(),
    };
    Answer::Failed { reason, message }
}

/// Makes a folder for listings, unless it is there.
fn make(folder: &Path) -> Result<(), Failure> {
    fs::create_dir_all(folder).map_err(|error| {
        let folder = files::shown(folder);
        Failure::new(format!("the folder {folder} cannot be made: {error}"))
    })
}

/// Draws the progress bar over itself, on a terminal; at the end it is taken away.
fn progress(done: usize, all: usize, streams: &mut Streams) {
    const WIDTH: usize = 40;
    if streams.progress {
        let full = done * WIDTH / all;
        let bar = format!("{:=<full$}{:width$}", "", "", width = WIDTH - full);
        let _ = write!(streams.err, "\r[{bar}] {done} of {all}");
        if done == all {
            let _ = write!(streams.err, "\r\u{1b}[K");
        }
        let _ = streams.err.flush();
    }
}
