//! `check`: all that is refused in a sheet, as a compiler tells it.

use super::show::counted;
use super::{cli, files, parsed, planned, quoted, Failure, Planned, Status, Streams};
use crate::check::refusals;
use clap::ArgMatches;

/// Tells each refusal, and prints the sum.
///
/// # Errors
///
/// The sheet cannot be read.
pub fn run(given: &ArgMatches, streams: &mut Streams) -> Result<Status, Failure> {
    let sheet = cli::needed(given, "SHEET");
    let (name, bytes) = (files::shown(&sheet), files::sheet(&sheet)?);
    if let Planned::Listing(listing) = planned(&bytes)? {
        let (words, listing) = (quoted(&bytes)?, parsed(&listing)?);
        let sum = format!(
            "{name}: accepted: {} in {} on {}\n",
            counted(listing.tasks, "task"),
            counted(listing.pieces.len(), "piece"),
            counted(words.cores, "core")
        );
        return streams.print(sum.as_bytes());
    }
    let told = refusals(&bytes)?;
    for why in &told {
        streams.say(&why.message(&name));
    }
    let sum = match told.len() {
        1 => "1 refusal, the library's answer to the sheet".to_owned(),
        many => format!(
            "{many} refusals; the first is the library's answer to the sheet, \
             each other its answer when all above it is mended"
        ),
    };
    streams.print(format!("{name}: {sum}\n").as_bytes())?;
    Ok(Status::Refused)
}
