//! `show`: a plan as tables that a person reads, on a terminal of 80 columns. The figures are the
//! listing's, the parts and periods the sheet's.

use super::json::{self, Asked};
use super::{cli, columns, files, parsed, planned, quoted, Failure, Planned, Status, Streams};
use crate::listing::{Listing, Piece};
use crate::quoted::{Fit, Sheet};
use clap::ArgMatches;
use std::fmt::Write;
use std::path::Path;

/// Prints the tables.
///
/// # Errors
///
/// The sheet cannot be read.
pub fn run(given: &ArgMatches, streams: &mut Streams) -> Result<Status, Failure> {
    let sheet = cli::needed(given, "SHEET");
    let done = show(given, &sheet, streams);
    let asked = [Asked::sheet(&sheet, None)];
    json::told(given, "show", &asked, done, streams)
}

fn show(given: &ArgMatches, sheet: &Path, streams: &mut Streams) -> Result<Status, Failure> {
    let (name, bytes, unit) = (files::shown(sheet), files::sheet(sheet)?, cli::unit(given));
    let in_json = |answer| {
        let mut begun = json::begun("show", &[Asked::sheet(sheet, Some(&bytes))]);
        begun.insert("unit".to_owned(), unit.into());
        json::text(begun, answer)
    };
    match (planned(&bytes)?, given.get_flag("json")) {
        (Planned::Listing(listing), false) => {
            let (rows, paint) = (parsed(&listing)?, Paint(streams.colour));
            streams.print(plan(&name, &quoted(&bytes)?, &rows, unit, paint).as_bytes())
        }
        (Planned::Listing(listing), true) => {
            let mut answer = json::listing(&parsed(&listing)?);
            answer.extend(json::sheet(&quoted(&bytes)?));
            streams.print(in_json(answer).as_bytes())
        }
        (Planned::Refused(why), json) => {
            streams.say(&why.message(&name));
            if json {
                streams.print(in_json(json::refused(&name, &why)).as_bytes())?;
            }
            Ok(Status::Refused)
        }
    }
}

/// The columns that every line keeps to. Only a file's name can be longer, on a line of its own.
pub const COLUMNS: usize = 80;

/// What stands before each line of a table.
pub const INDENT: &str = "  ";

/// Whether colours are used.
#[derive(Clone, Copy, Debug, PartialEq, Eq)]
pub struct Paint(pub bool);

impl Paint {
    /// For titles.
    pub const BOLD: &'static str = "1";
    /// For the headers of tables.
    pub const DIM: &'static str = "2";
    /// For split tasks.
    pub const SPLIT: &'static str = "33";
    /// For what is new.
    pub const NEW: &'static str = "32";
    /// For what is gone.
    pub const GONE: &'static str = "31";

    /// A text in a terminal's colour, or as it is.
    #[must_use]
    pub fn on(self, colour: &str, text: &str) -> String {
        if self.0 {
            format!("\u{1b}[{colour}m{text}\u{1b}[0m")
        } else {
            text.to_owned()
        }
    }
}

/// The headers of a piece's fields.
pub const PIECE: [&str; 8] = [
    "<task", "<part", "<kind", "budget", "window", "period", "jitter", "charged",
];

/// The headers of a split task's two pieces.
pub const HALF: [&str; 7] = [
    "<task", "<kind", "core", "budget", "window", "jitter", "charged",
];

/// Each core with its pieces in placement order, then the split tasks. Where the names are too long
/// for task and part in one row, the parts have a table of their own.
#[must_use]
pub fn plan(name: &str, sheet: &Sheet, listing: &Listing, unit: &str, paint: Paint) -> String {
    let mut tables = Tables::below(heading(name, &sum(sheet, listing, unit), paint), paint);
    let mut head = PIECE.to_vec();
    let row = |piece| piece_row(sheet, piece).to_vec();
    let mut rows: Vec<Vec<String>> = listing.pieces.iter().map(row).collect();
    let mut lines = columns::lines(&head, &rows);
    let with_parts = fit(&lines);
    if !with_parts {
        head.remove(1);
        for row in &mut rows {
            row.remove(1);
        }
        lines = columns::lines(&head, &rows);
    }
    for core in 1..=sheet.cores {
        let pieces: Vec<String> = (lines[1..].iter().zip(&listing.pieces))
            .filter(|(_, piece)| piece.core == core)
            .map(|(line, piece)| Paint(paint.0 && piece.is_half()).on(Paint::SPLIT, line))
            .collect();
        let count = counted(pieces.len(), "piece");
        tables.add(&format!("core {core}"), &count, &lines[0], &pieces);
    }
    let halves = half_rows(listing);
    if !halves.is_empty() {
        let (count, lines) = (halves.len() / 2, columns::lines(&HALF, &halves));
        let halves: Vec<String> = (lines[1..].iter())
            .map(|line| paint.on(Paint::SPLIT, line))
            .collect();
        tables.add("split", &counted(count, "task"), &lines[0], &halves);
    }
    if !with_parts {
        let row = |fit: &Fit| vec![fit.task.to_owned(), fit.part.to_owned()];
        let rows: Vec<Vec<String>> = sheet.fits.iter().map(row).collect();
        let (count, lines) = (rows.len(), columns::lines(&PIECE[..2], &rows));
        tables.add("parts", &counted(count, "task"), &lines[0], &lines[1..]);
    }
    tables.text
}

/// A file's name and what is said of it above tables, on one line if there is room.
#[must_use]
pub fn heading(name: &str, said: &str, paint: Paint) -> String {
    let beside = columns::width(name) + 2 + columns::width(said) <= COLUMNS;
    let between = if beside { " " } else { "\n  " };
    format!("{}:{between}{said}\n", paint.on(Paint::BOLD, name))
}

/// Tables, one below the other.
pub struct Tables {
    /// What is to be printed.
    pub text: String,
    paint: Paint,
}

impl Tables {
    /// Tables below a heading.
    #[must_use]
    pub fn below(heading: String, paint: Paint) -> Self {
        Tables {
            text: heading,
            paint,
        }
    }

    /// Adds a table under its title: its header and its lines, which have their colours already.
    pub fn add(&mut self, title: &str, count: &str, head: &str, lines: &[String]) {
        let title = self.paint.on(Paint::BOLD, title);
        let _ = writeln!(self.text, "\n{title}: {count}");
        if !lines.is_empty() {
            let _ = writeln!(self.text, "{INDENT}{}", self.paint.on(Paint::DIM, head));
        }
        for line in lines {
            let _ = writeln!(self.text, "{INDENT}{line}");
        }
    }
}

/// Whether lines of a table have room on a terminal.
#[must_use]
pub fn fit(lines: &[String]) -> bool {
    let fits = |line: &String| INDENT.len() + columns::width(line) <= COLUMNS;
    lines.iter().all(fits)
}

/// The sum above the tables.
#[must_use]
pub fn sum(sheet: &Sheet, listing: &Listing, unit: &str) -> String {
    format!(
        "{} in {} on {}, grain {}, times in {unit}",
        counted(listing.tasks, "task"),
        counted(listing.pieces.len(), "piece"),
        counted(sheet.cores, "core"),
        sheet.grain
    )
}

/// A number of things.
#[must_use]
pub fn counted(number: usize, thing: &str) -> String {
    match number {
        0 => format!("no {thing}s"),
        1 => format!("1 {thing}"),
        _ => format!("{number} {thing}s"),
    }
}

/// A piece's fields.
#[must_use]
pub fn piece_row(sheet: &Sheet, piece: &Piece) -> [String; 8] {
    let part = sheet.part_of(piece.task);
    [
        piece.task.to_owned(),
        part.map_or("", |part| part.name).to_owned(),
        piece.kind.word().to_owned(),
        piece.budget.to_string(),
        piece.window.to_string(),
        part.map_or("", |part| part.times[2]).to_owned(),
        piece.jitter.to_string(),
        piece.charged.to_string(),
    ]
}

/// The split tasks' pieces, each first piece followed by its last.
#[must_use]
pub fn half_rows(listing: &Listing) -> Vec<Vec<String>> {
    let row = |piece: &Piece| {
        let names = [piece.task.to_owned(), piece.kind.word().to_owned()];
        names.into_iter().chain(piece.figures()).collect()
    };
    let splits = listing.splits();
    (splits.iter())
        .flat_map(|(first, last)| [row(first), row(last)])
        .collect()
}
