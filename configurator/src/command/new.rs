//! `new`: a small sheet that plans, and beside it the words that explain it. A sheet has no comments,
//! so the words stand in a file of their own.

use super::columns::width;
use super::fields::{Line, LINES, SHEET};
use super::show::{self, Paint};
use super::{cli, files, parsed, planned, quoted, Failure, Planned, Status, Streams};
use crate::ffi::close;
use crate::text::shell_word;
use clap::ArgMatches;
use std::fmt::Write as _;
use std::fs::{self, File};
use std::io::{self, Write as _};
use std::path::{Path, PathBuf};

/// The sheet: three axes and a sensor on two cores, of which one task is split.
pub const EXAMPLE: &str = "\
machine\t2\t10
cost\t10\t20\t5\t10\t10\t10\t15\t10\t1
part\tservo-2ms\t1100\t2000\t2000\t0\t20\t40
part\tmark-eye\t150\t1000\t4000\t50\t10\t20
fit\tfeed\tservo-2ms
fit\tjaw\tservo-2ms
fit\tcutter\tservo-2ms
fit\tregister\tmark-eye
";

/// The columns that every line of the words keeps to.
const COLUMNS: usize = 78;

/// What stands above the lines.
const ABOVE: &str = "\
This file explains the sheet beside it, line by line. A sheet has no comments,
so the words stand here; the planner never reads them. In the commands below,
FILE stands for the name of the sheet.

";

/// What stands below the plan.
const BELOW: &str = "
The task jaw has no room as a whole on core 1. So it begins there, stops when
its budget is used up, and goes on at core 2: a first piece and a last piece.
Each piece ends within its window. The last piece may come late by its jitter,
which is π + IpB + RelO + TsetO. The charged time is the budget with what the
costs, P and M add to it.

Now put in the numbers of your own machine, a line at a time:

  spardimple check FILE             tells all that is wrong with it
  spardimple plan FILE              prints the plan for your program
  spardimple show --unit us FILE    shows the plan as above
  spardimple man | man -l -         has all of this, and every refusal

Use an editor that keeps tabs. If it made blanks of them, this mends it:

  spardimple fmt FILE -o MENDED
";

/// Writes the sheet and the words, and says what to do next.
///
/// # Errors
///
/// One of the files is there already or cannot be written. Then none is written.
pub fn run(given: &ArgMatches, streams: &mut Streams) -> Result<Status, Failure> {
    let sheet = cli::needed(given, "FILE");
    if files::is_standard(&sheet) {
        let why = "new writes two files, so FILE has to be a name and not -";
        return Err(Failure::wrong_use(why.to_owned()));
    }
    let mut words = sheet.clone().into_os_string();
    words.push(".txt");
    let words = PathBuf::from(words);
    let explained = explained()?;
    for path in [&sheet, &words] {
        if fs::symlink_metadata(path).is_ok() {
            return Err(there_already(path));
        }
    }
    create(&sheet, EXAMPLE)?;
    if let Err(failure) = create(&words, &explained) {
        let _ = fs::remove_file(&sheet);
        return Err(failure);
    }
    let (sheet, words) = (files::shown(&sheet), files::shown(&words));
    let told = format!(
        "{sheet}: a sheet that plans\n{words}: what each line and each number of it means\n\
         next: spardimple plan {}\n",
        shell_word(&sheet)
    );
    streams.print(told.as_bytes())
}

/// Writes a file that is not there yet, whole or not at all.
fn create(path: &Path, text: &str) -> Result<(), Failure> {
    let opened = File::options().write(true).create_new(true).open(path);
    let mut file = opened.map_err(|error| match error.kind() {
        io::ErrorKind::AlreadyExists => there_already(path),
        _ => Failure::of(path, &error),
    })?;
    let written = file.write_all(text.as_bytes());
    let written = written.and_then(|()| file.sync_all());
    written.and_then(|()| close(file)).map_err(|error| {
        let _ = fs::remove_file(path);
        Failure::of(path, &error)
    })
}

/// The failure that something of that name is there.
fn there_already(path: &Path) -> Failure {
    Failure::new(format!(
        "{}: there already, and new overwrites nothing; choose another name",
        files::shown(path)
    ))
}

/// The words: each line with its fields, then the library's plan.
///
/// # Errors
///
/// The library refuses the sheet, which the tests rule out.
pub fn explained() -> Result<String, Failure> {
    let bytes = EXAMPLE.as_bytes();
    let listing = match planned(bytes)? {
        Planned::Listing(listing) => listing,
        Planned::Refused(why) => return Err(Failure::new(why.message("the new sheet"))),
    };
    let mut text = ABOVE.to_owned();
    text.push_str(&wrapped("", &SHEET));
    text.push_str("Here a tick is one microsecond (us).\n");
    for line in &LINES {
        kind(&mut text, line);
    }
    let plan = show::plan(
        "The plan",
        &quoted(bytes)?,
        &parsed(&listing)?,
        "us",
        Paint(false),
    );
    let _ = write!(text, "\n\n{plan}{BELOW}");
    Ok(text)
}

/// The sheet's lines of one kind, and each field with what it is in each of them.
fn kind(text: &mut String, line: &Line) {
    let here: Vec<(usize, Vec<&str>)> = (EXAMPLE.lines().enumerate())
        .map(|(above, row)| (above + 1, row.split('\t').collect()))
        .filter(|(_, row): &(_, Vec<&str>)| row[0] == line.word)
        .collect();
    text.push_str("\n\n");
    for (number, row) in &here {
        let _ = writeln!(text, "line {number}:  {}", row.join("  "));
    }
    let _ = write!(text, "\n{}", wrapped("", line.about));
    for (at, field) in line.fields.iter().enumerate() {
        let values: Vec<&str> = here.iter().map(|(_, row)| row[at + 1]).collect();
        let _ = write!(text, "\n  {}: {}\n", field.name, values.join(", "));
        text.push_str(&wrapped("    ", &field.sentences()));
    }
}

/// Sentences in lines, each with that indent.
fn wrapped(indent: &str, sentences: &[&str]) -> String {
    let mut text = String::new();
    let mut line = String::new();
    for word in sentences.iter().flat_map(|sentence| sentence.split(' ')) {
        if !line.is_empty() && width(indent) + width(&line) + 1 + width(word) > COLUMNS {
            let _ = writeln!(text, "{indent}{line}");
            line.clear();
        }
        if !line.is_empty() {
            line.push(' ');
        }
        line.push_str(word);
    }
    let _ = writeln!(text, "{indent}{line}");
    text
}
