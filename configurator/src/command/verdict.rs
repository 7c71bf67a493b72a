//! `verdict`: one core judged by the demand rule, asked with bytes or with a table of text.

use super::core::{Core, Heard};
use super::{cli, json, Failure, Status, Streams};
use crate::{verdict, Answer, Refusal, UnknownNumber};
use clap::ArgMatches;

/// Prints the verdict.
///
/// # Errors
///
/// A file cannot be read.
pub fn run(given: &ArgMatches, streams: &mut Streams) -> Result<Status, Failure> {
    let core = match cli::path(given, "table") {
        Some(table) => Core::Table(table),
        None => Core::Bytes(cli::needed(given, "RECORDS"), cli::needed(given, "COSTS")),
    };
    let heard = core.ask("verdict", judged);
    let done = heard.and_then(|heard| tell(given, heard, streams));
    json::told(given, "verdict", &core.files(), done, streams)
}

/// The library's verdict on records and costs, or the refusal.
///
/// # Errors
///
/// The library answers a number that stands for nothing, which a proved library never does.
pub fn judged(records: &[u8], costs: &[u8]) -> Result<Result<Answer, Refusal>, UnknownNumber> {
    Ok(match verdict(records, costs)? {
        Answer::Refused(refusal) => Err(refusal),
        answer => Ok(answer),
    })
}

/// Prints an answer. With `--exit-status` the exit status tells the verdict.
fn tell(
    given: &ArgMatches,
    heard: Heard<Answer>,
    streams: &mut Streams,
) -> Result<Status, Failure> {
    let in_json = given.get_flag("json");
    let (status, answer) = match heard.answer {
        Ok(answer) => {
            let told = given.get_flag("exit-status");
            let status = match answer {
                Answer::Overloaded(_) if told => Status::Overloaded,
                Answer::Undecided if told => Status::Undecided,
                _ => Status::Accepted,
            };
            if !in_json {
                streams.print(format!("{answer}\n").as_bytes())?;
            }
            (status, json::verdict(answer))
        }
        Err(refused) => {
            for said in &refused.said {
                streams.say(said);
            }
            (Status::Refused, refused.fields)
        }
    };
    if in_json {
        streams.print(json::text(heard.begun, answer).as_bytes())?;
    }
    Ok(status)
}
