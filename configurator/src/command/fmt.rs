//! `fmt`: a sheet or a table with what an editor or a spreadsheet has done to it undone.

use super::files::SHEET_MOST;
use super::show::counted;
use super::verdict::judged;
use super::{cli, files, planned, table, Failure, Planned, Status, Streams};
use crate::explain::{self, Explained};
use crate::forms::Text;
use crate::mend::{mended, no_text};
use crate::text::shell_word;
use crate::Refusal;
use clap::ArgMatches;
use std::path::Path;

/// The longest file that is mended, four times as long as a sheet: UTF-16 takes twice the bytes, and
/// blanks some more.
const MOST: usize = 4 * SHEET_MOST;

/// Prints or writes the mended text, and tells what was mended, and whether it is still refused.
///
/// # Errors
///
/// The file cannot be read or the text not be written.
pub fn run(given: &ArgMatches, streams: &mut Streams) -> Result<Status, Failure> {
    let (sheet, out) = (cli::needed(given, "SHEET"), cli::path(given, "out"));
    let out = out.as_deref();
    let (name, bytes) = (
        files::shown(&sheet),
        files::beginning_for(out, &sheet, MOST + 1)?,
    );
    let mended = mended(&bytes);
    if bytes.len() > MOST || mended.bytes.len() > SHEET_MOST {
        let mut why = explain::refused(Refusal::new(9, 0), &[]);
        if bytes.len() > MOST {
            why.why = Some("fmt reads 65,536 bytes, and the file goes on".to_owned());
        }
        streams.say(&why.message(&name));
        return Ok(Status::Refused);
    }
    streams.deliver(out, &mended.bytes)?;
    for (flaw, &(lines, first)) in &mended.flaws {
        let place = match lines {
            1 => format!("line {first}"),
            _ => format!("{}, first line {first}", counted(lines, "line")),
        };
        streams.say(&format!("{name}: {}: {place}", flaw.name()));
    }
    if let Some(why) = no_text(&mended.bytes) {
        let nothing = match mended.flaws.len() {
            0 => "nothing mended",
            _ => "nothing else mended",
        };
        streams.say(&format!("{name}: {nothing}: {why}"));
    }
    if let Some(still) = still_refused(out, &mended.bytes)? {
        streams.say(&still);
    }
    Ok(Status::Accepted)
}

/// The sentence that a mended text is refused for something that a person has to mend, and what tells
/// more. That no core has room (7) is about the plan and not the text.
fn still_refused(out: Option<&Path>, bytes: &[u8]) -> Result<Option<String>, Failure> {
    let text = Text::of(bytes);
    let why = match refused(text, bytes)? {
        Some(why) if why.refusal.number() != 7 => why,
        _ => return Ok(None),
    };
    let (begin, file) = match out.filter(|out| !files::is_standard(out)) {
        Some(out) => {
            let name = files::shown(out);
            (format!("{name}:"), shell_word(&name))
        }
        None => ("the mended text is".to_owned(), "-".to_owned()),
    };
    let place = why
        .line
        .map_or(String::new(), |line| format!(" at line {}", line.number));
    let asked = match text {
        Text::Sheet => "check",
        Text::Table => "verdict --table",
    };
    let number = why.refusal.number();
    Ok(Some(format!(
        "{begin} still refused ({number}){place}; `spardimple {asked} {file}` says why"
    )))
}

/// The library's refusal of a text, if it refuses it.
fn refused(text: Text, bytes: &[u8]) -> Result<Option<Explained>, Failure> {
    Ok(match text {
        Text::Sheet => match planned(bytes)? {
            Planned::Refused(why) => Some(why),
            Planned::Listing(_) => None,
        },
        Text::Table => {
            let refusal = table::ask(bytes, judged)?.err();
            refusal.map(|refusal| explain::refused_in(text, refusal, bytes, &|above| above + 1))
        }
    })
}
