//! A batch's summary: a table of the sheets, what else is to be known, and the sum.

use super::{Answer, Batch, Outcome};
use crate::command::show::counted;
use crate::command::{columns, files, Status};
use crate::text;
use std::os::unix::ffi::OsStrExt;
use std::path::Path;

/// The whole summary. With `quiet` the table has the sheets that are not planned, and is left out where
/// there are none.
#[must_use]
pub fn text(batch: &Batch, quiet: bool) -> String {
    let told = |outcome: &&Outcome| !(quiet && outcome.status() == Status::Accepted);
    let rows: Vec<Vec<String>> = batch.sheets.iter().filter(told).map(row).collect();
    let mut lines = if quiet && rows.is_empty() {
        Vec::new()
    } else {
        columns::lines(&["<sheet", "<answer", "tasks", "pieces", "<reason"], &rows)
    };
    lines.extend(below(batch));
    let with = |status| {
        let sheets = batch.sheets.iter().map(Outcome::status);
        sheets.filter(|&its| its == status).count()
    };
    lines.push(format!(
        "{}: {} planned, {} refused, {} not read or written",
        counted(batch.sheets.len(), "sheet"),
        with(Status::Accepted),
        with(Status::Refused),
        with(Status::Failed)
    ));
    lines.join("\n") + "\n"
}

/// A sheet's line of the table.
fn row(outcome: &Outcome) -> Vec<String> {
    let fields = match &outcome.answer {
        Answer::Planned { tasks, pieces } => {
            let (tasks, pieces) = (tasks.to_string(), pieces.to_string());
            ["planned".to_owned(), tasks, pieces, String::new()]
        }
        Answer::Refused(why) => {
            let line = why.line.as_ref();
            let line = line.map(|line| format!(" at line {}", line.number));
            let (number, line) = (why.refusal.number(), line.unwrap_or_default());
            let reason = why.why.as_ref().unwrap_or(&why.meaning).clone();
            let answer = format!("refused ({number}){line}");
            [answer, String::new(), String::new(), reason]
        }
        Answer::Failed { reason, .. } => {
            let answer = "not read or written".to_owned();
            [answer, String::new(), String::new(), reason.clone()]
        }
    };
    let mut row = vec![named(&outcome.name)];
    row.extend(fields);
    row
}

/// What stands below the table, a line each.
fn below(batch: &Batch) -> Vec<String> {
    let mut lines = Vec::new();
    for outcome in &batch.sheets {
        if let Some(older) = &outcome.older {
            let what = match outcome.status() {
                Status::Accepted => "what an older listing of it came from",
                _ => "an older listing of it",
            };
            let (name, older) = (named(&outcome.name), files::shown(older));
            lines.push(format!("{name}: {what} is still there, unchanged: {older}"));
        }
    }
    for (name, what) in &batch.skipped {
        lines.push(format!("{}: {what}, skipped", named(name)));
    }
    for name in &batch.mentioned {
        let ending = named(Path::new(name.extension().unwrap_or_default()));
        lines.push(format!(
            "{}: not planned, since its name ends in .{ending} and not .sheet",
            named(name)
        ));
    }
    for (name, cause) in &batch.unread {
        lines.push(format!(
            "{}: the folder cannot be read: {cause}",
            named(name)
        ));
    }
    lines
}

/// A name below the folder, for people.
fn named(name: &Path) -> String {
    text::shown(name.as_os_str().as_bytes())
}
