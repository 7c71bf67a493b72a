//! `why`: what a core is asked for within the length that its verdict names, piece by piece. It is asked
//! of the cores of a sheet's plan, or of one core that is given as records or as a table.

mod as_json;
pub mod tables;

use super::core::Core;
use super::json::{self, Asked, Fields};
use super::show::Paint;
use super::{cli, files, quoted, reasons, Failure, Status, Streams};
use crate::explain::{self, Explained};
use crate::why::{words, Stuck, Verdict, Why};
use crate::{why_core, why_records, Refusal};
use clap::ArgMatches;
use std::path::Path;

/// What to do about a core that a machine does not have.
const OTHER_CORE: &str = "ask for a core that the machine has, or leave CORE out for all of them";

/// Prints what the cores are asked for.
///
/// # Errors
///
/// A file cannot be read.
pub fn run(given: &ArgMatches, streams: &mut Streams) -> Result<Status, Failure> {
    if let Some(core) = Core::named(given) {
        let done = of_core(given, &core, streams);
        return json::told(given, "why", &core.files(), done, streams);
    }
    let sheet = cli::needed(given, "SHEET");
    let done = of_sheet(given, &sheet, streams);
    json::told(given, "why", &[Asked::sheet(&sheet, None)], done, streams)
}

/// The cores that are told of.
pub struct Told<'a> {
    /// How what was asked about is called.
    pub name: &'a str,
    /// What a tick is called.
    pub unit: &'a str,
    /// Each core's number, if it has one, with its figures.
    pub cores: Vec<(Option<usize>, Why<'a>)>,
}

impl Told<'_> {
    /// Where the walk stuck.
    #[must_use]
    pub fn stuck(&self) -> Option<Stuck<'_>> {
        self.cores.iter().find_map(|(_, why)| why.stuck)
    }

    /// How the run ends: a sheet with no room is refused; a core's own verdict is told where that is asked
    /// for.
    fn status(&self, told: bool) -> Status {
        let verdict = self.cores.first().map(|(_, why)| why.verdict);
        match verdict {
            _ if self.stuck().is_some() => Status::Refused,
            Some(Verdict::Overloaded) if told => Status::Overloaded,
            Some(Verdict::Undecided) if told => Status::Undecided,
            _ => Status::Accepted,
        }
    }
}

/// Tells of one core that is given as records or as a table.
fn of_core(given: &ArgMatches, core: &Core, streams: &mut Streams) -> Result<Status, Failure> {
    let heard = core.ask("why", why_records)?;
    match heard.answer {
        Ok(listing) => {
            let told = Told {
                name: &core.name(),
                unit: cli::unit(given),
                cores: vec![(None, reasons(&listing)?)],
            };
            print(given, &told, &[&listing], heard.begun, None, streams)
        }
        Err(refused) => {
            for said in &refused.said {
                streams.say(said);
            }
            if given.get_flag("json") {
                streams.print(json::text(heard.begun, refused.fields).as_bytes())?;
            }
            Ok(Status::Refused)
        }
    }
}

/// Tells of one core of a sheet's plan, or of all.
fn of_sheet(given: &ArgMatches, sheet: &Path, streams: &mut Streams) -> Result<Status, Failure> {
    let (name, bytes) = (files::shown(sheet), files::sheet(sheet)?);
    let begun = json::begun("why", &[Asked::sheet(sheet, Some(&bytes))]);
    let core = given.get_one::<u64>("CORE").copied();
    let listings = match listings(&bytes, core)? {
        Ok(listings) => listings,
        Err(refusal) => {
            let why = refused(refusal, &bytes, core)?;
            streams.say(&why.message(&name));
            if given.get_flag("json") {
                let text = json::text(begun, json::refused(&name, &why));
                streams.print(text.as_bytes())?;
            }
            return Ok(Status::Refused);
        }
    };
    let texts: Vec<&[u8]> = listings.iter().map(|(_, text)| &text[..]).collect();
    let cores = listings
        .iter()
        .map(|(core, text)| Ok((Some(*core), reasons(text)?)));
    let told = Told {
        name: &name,
        unit: cli::unit(given),
        cores: cores.collect::<Result<_, Failure>>()?,
    };
    let refused = told.stuck().map(|stuck| {
        let mut why = explain::refused(Refusal::new(7, stuck.place), &bytes);
        // the figures follow on standard output, in words too
        streams.say(&why.message(&name));
        why.no_room = words::sentences(&told.cores[0].1, Some(stuck.core), "ticks");
        json::refused(&name, &why)
    });
    print(given, &told, &texts, begun, refused, streams)
}

/// The why listings of a core, or of all in their order; a sheet with no room has one. Or the refusal.
#[allow(clippy::type_complexity)] // cores with their listings, or a refusal, or a failure
fn listings(
    sheet: &[u8],
    core: Option<u64>,
) -> Result<Result<Vec<(usize, Vec<u8>)>, Refusal>, Failure> {
    let mut listings = Vec::new();
    let mut asked = core.unwrap_or(1);
    loop {
        let listing = match why_core(sheet, asked)? {
            Ok(listing) => listing,
            Err(refusal) => return Ok(Err(refusal)),
        };
        let stuck = reasons(&listing)?.stuck.is_some();
        listings.push((usize::try_from(asked).unwrap_or(usize::MAX), listing));
        if core.is_some() || stuck || listings.len() >= quoted(sheet)?.cores {
            return Ok(Ok(listings));
        }
        asked += 1;
    }
}

/// A refusal, for people: of the sheet, or with 1 and no line of a core that its machine does not have.
fn refused(refusal: Refusal, sheet: &[u8], core: Option<u64>) -> Result<Explained, Failure> {
    let mut why = explain::refused(refusal, sheet);
    if (refusal.number(), refusal.carries()) == (1, 0) {
        let cores = super::show::counted(quoted(sheet)?.cores, "core");
        why.meaning = format!("there is no core {}", core.unwrap_or_default());
        why.why = Some(format!("the machine has {cores}"));
        why.to_do = Some(OTHER_CORE);
    }
    Ok(why)
}

/// Prints what cores are asked for: as the library's listings, as JSON, or as tables.
fn print(
    given: &ArgMatches,
    told: &Told,
    listings: &[&[u8]],
    begun: Fields,
    refused: Option<Fields>,
    streams: &mut Streams,
) -> Result<Status, Failure> {
    let bytes = if given.get_flag("listing") {
        listings.concat()
    } else if given.get_flag("json") {
        json::text(begun, as_json::fields(told, refused)).into_bytes()
    } else {
        tables::text(told, Paint(streams.colour)).into_bytes()
    };
    streams.print(&bytes)?;
    Ok(told.status(given.get_flag("exit-status")))
}
