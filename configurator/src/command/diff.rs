//! `diff`: what moved between the plans of two sheets, as a table, as the library's own lines, as JSON, or
//! as a page with both plans side by side.

mod as_json;
mod page;
mod tables;

use super::json::{self, Asked};
use super::show::{counted, Paint};
use super::{cli, files, moved, planned, Failure, Planned, Status, Streams};
use crate::diff::{Diff, Fate, Piece, FIELDS};
use crate::explain::{self, Explained};
use crate::{Refusal, Whose};
use clap::ArgMatches;
use std::path::Path;

/// Prints what moved, or writes the page.
///
/// # Errors
///
/// A sheet cannot be read, or the page not be written.
pub fn run(given: &ArgMatches, streams: &mut Streams) -> Result<Status, Failure> {
    let sheets = ["SHEET1", "SHEET2"].map(|id| cli::needed(given, id));
    let [first, second] = &sheets;
    let done = diff(given, [first, second], streams);
    let asked = [first, second].map(|sheet| Asked::sheet(sheet, None));
    json::told(given, "diff", &asked, done, streams)
}

/// Two sheets that are compared.
pub struct Two<'a> {
    /// What they are called.
    pub names: [&'a str; 2],
    /// Their bytes.
    pub sheets: [&'a [u8]; 2],
    /// What a tick is called.
    pub unit: &'a str,
}

fn diff(given: &ArgMatches, paths: [&Path; 2], streams: &mut Streams) -> Result<Status, Failure> {
    files::one_standard(paths, "sheets")?;
    let page = cli::path(given, "page");
    let read = |path| files::sheet_for(page.as_deref(), path);
    let (first, second) = (read(paths[0])?, read(paths[1])?);
    let names = paths.map(files::shown);
    let two = Two {
        names: [&names[0], &names[1]],
        sheets: [&first, &second],
        unit: cli::unit(given),
    };
    let in_json = |answer| {
        let asked = [0, 1].map(|at| Asked::sheet(paths[at], Some(two.sheets[at])));
        let mut begun = json::begun("diff", &asked);
        begun.insert("unit".to_owned(), two.unit.into());
        json::text(begun, answer).into_bytes()
    };
    let text = match crate::diff(&first, &second)? {
        Ok(text) => text,
        Err((whose, refusal)) => {
            let refused = refused(&two, whose, refusal)?;
            for (at, why) in &refused {
                streams.say(&why.message(two.names[*at]));
            }
            if given.get_flag("json") {
                streams.print(&in_json(as_json::refused(&two, &refused)))?;
            }
            return Ok(Status::RefusedOfTwo);
        }
    };
    let diff = moved(&text)?;
    if let Some(page) = page.as_deref() {
        let html = page::side_by_side(&two, &diff)?;
        streams.deliver(Some(page), html.as_bytes())?;
    } else if given.get_flag("json") {
        streams.print(&in_json(as_json::moved(&diff)))?;
    } else if given.get_flag("listing") {
        streams.print(&text)?;
    } else {
        let paint = Paint(streams.colour);
        streams.print(tables::text(&two, &diff, paint).as_bytes())?;
    }
    Ok(if diff.tasks.is_empty() {
        Status::Accepted
    } else {
        Status::MOVED
    })
}

/// The refusals to tell of, each with the place of its sheet. The library tells of the first refused sheet
/// alone; of the other it is asked by its plan.
fn refused(two: &Two, whose: Whose, refusal: Refusal) -> Result<Vec<(usize, Explained)>, Failure> {
    let told = |at: usize| explain::told(refusal, two.sheets[at]);
    Ok(match whose {
        Whose::First => {
            let mut refused = vec![(0, told(0)?)];
            if let Planned::Refused(why) = planned(two.sheets[1])? {
                refused.push((1, why));
            }
            refused
        }
        Whose::Second => vec![(1, told(1)?)],
        Whose::Buffer => return Err(Failure::new(refusal.to_string())),
    })
}

/// All of it as a sentence: how many tasks moved, came, went and stayed.
///
/// ```
/// use configurator::command::diff::sentence;
/// use configurator::diff::Diff;
///
/// let said = |text| sentence(&Diff::parse(text).unwrap());
/// let came = b"diff\t3\t4\nonly2\tpress\t1\twhole\t6\t10\t10\t0\t0\t1\n";
/// assert_eq!(said(came), "no tasks moved, 1 came, 0 went, 3 stayed");
/// assert_eq!(said(b"diff\t3\t3\n"), "nothing moved: 3 tasks stayed");
/// assert_eq!(said(b"diff\t0\t0\n"), "nothing moved: neither plan has a task");
/// ```
#[must_use]
pub fn sentence(diff: &Diff) -> String {
    let stayed = diff.stayed();
    match (&diff.tasks[..], stayed) {
        ([], 0) => "nothing moved: neither plan has a task".to_owned(),
        ([], _) => format!("nothing moved: {} stayed", counted(stayed, "task")),
        _ => {
            let [came, went] = [Fate::Came, Fate::Went].map(|fate| diff.count(fate));
            let moved = counted(diff.count(Fate::Moved), "task");
            format!("{moved} moved, {came} came, {went} went, {stayed} stayed")
        }
    }
}

/// A piece's fields, where `*` stands before those that are new beside the pieces that the task had; of a
/// task that had none, nothing is marked. The kind, which is set to the left, has a blank there else.
#[must_use]
pub fn marked(piece: &Piece, was: &[Piece]) -> Vec<String> {
    let new = if was.is_empty() {
        [false; 8]
    } else {
        piece.new_beside(was)
    };
    let mark = |((field, name), new): ((String, &str), bool)| match (new, name) {
        (true, _) => format!("*{field}"),
        (false, "kind") => format!(" {field}"),
        (false, _) => field,
    };
    let fields = piece.fields().into_iter().zip(FIELDS);
    fields.zip(new).map(mark).collect()
}
