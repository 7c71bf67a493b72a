//! `plan`: the listing of a sheet.

use super::json::{self, Asked};
use super::{cli, files, output, parsed, planned, Failure, Planned, Status, Streams};
use crate::origin;
use clap::ArgMatches;
use std::fs;
use std::path::Path;

/// Prints or writes the listing.
///
/// # Errors
///
/// The sheet cannot be read or the listing not be written.
pub fn run(given: &ArgMatches, streams: &mut Streams) -> Result<Status, Failure> {
    let sheet = cli::needed(given, "SHEET");
    let done = plan(given, &sheet, streams);
    let asked = [Asked::sheet(&sheet, None)];
    json::told(given, "plan", &asked, done, streams)
}

fn plan(given: &ArgMatches, sheet: &Path, streams: &mut Streams) -> Result<Status, Failure> {
    let out = cli::path(given, "out");
    let out = out.as_deref();
    let beside = out.filter(|_| given.get_flag("origin")).map(origin::place);
    if beside.is_some() && !out.map_or(false, is_file) {
        let why = "--origin: there is a file beside a file only; name one with -o";
        return Err(Failure::wrong_use(why.to_owned()));
    }
    let beside = beside.as_deref();
    let bytes = files::sheet_for(out.into_iter().chain(beside), sheet)?;
    let name = files::shown(sheet);
    let in_json = |answer| {
        let begun = json::begun("plan", &[Asked::sheet(sheet, Some(&bytes))]);
        json::text(begun, answer).into_bytes()
    };
    match planned(&bytes)? {
        Planned::Listing(mut listing) => {
            if given.get_flag("json") {
                listing = in_json(json::listing(&parsed(&listing)?));
            }
            if let (Some(out), Some(beside)) = (out, beside) {
                let said = origin::beside(&name, &bytes, &listing);
                let listing = output::prepare(out, &listing)?;
                let said = output::prepare(beside, said.as_bytes())?;
                listing.place().and_then(|()| said.place())?;
                return Ok(Status::Accepted);
            }
            streams.deliver(out, &listing)?;
            let older = out.map(origin::place).filter(|older| older.is_file());
            if let Some(older) = older {
                let older = files::shown(&older);
                streams.say(&format!("{older}: this is of an older listing"));
            }
            Ok(Status::Accepted)
        }
        Planned::Refused(why) => {
            streams.say(&why.message(&name));
            if given.get_flag("json") {
                streams.print(&in_json(json::refused(&name, &why)))?;
            }
            Ok(Status::Refused)
        }
    }
}

/// Whether an output is an ordinary file, or will be.
fn is_file(out: &Path) -> bool {
    let there = fs::metadata(out);
    !files::is_standard(out) && there.map_or(true, |there| there.is_file())
}
