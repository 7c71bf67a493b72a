//! Answers as JSON. `docs/json.schema.json` describes them; its examples are the tests'.

use super::files::{self, SHEET_MOST};
use super::layout::laid_out;
use super::{Failure, Status, Streams};
use crate::explain::Explained;
use crate::listing::{Listing, Piece};
use crate::origin;
use crate::quoted::{number, Sheet, COSTS, TIMES};
use crate::{Answer, Refusal};
use clap::ArgMatches;
use serde_json::{json, Map, Value};
use std::fmt::Write;
use std::os::unix::ffi::OsStrExt;
use std::path::Path;

/// The version of the form. It grows when a field changes its meaning or goes; a new field changes
/// nothing for those who do not know it.
pub const VERSION: u32 = 1;

/// A file that was asked about: what it is, where it is, and its bytes if they could be read.
pub struct Asked<'a> {
    /// `sheet`, `records`, `costs` or `table`.
    pub what: &'static str,
    /// Its name.
    pub path: &'a Path,
    /// What was read of it.
    pub bytes: Option<&'a [u8]>,
}

impl<'a> Asked<'a> {
    /// A file of that kind.
    #[must_use]
    pub fn new(what: &'static str, path: &'a Path, bytes: Option<&'a [u8]>) -> Self {
        Asked { what, path, bytes }
    }

    /// A sheet.
    #[must_use]
    pub fn sheet(path: &'a Path, bytes: Option<&'a [u8]>) -> Self {
        Asked::new("sheet", path, bytes)
    }
}

/// An answer: fields by their names, in order.
pub type Fields = Map<String, Value>;

/// The answer to a command, begun: what made it, and what it was asked about.
#[must_use]
pub fn begun(command: &str, asked: &[Asked]) -> Fields {
    let files: Vec<Value> = asked.iter().map(file).collect();
    fields(json!({
        "version": VERSION,
        "command": command,
        "made": {
            "program": origin::PROGRAM,
            "commit": origin::COMMIT,
            "archive_sha256": origin::ARCHIVE,
        },
        "files": files,
    }))
}

/// A file: what it is, its names, and its digest if it was read whole.
fn file(asked: &Asked) -> Value {
    let whole = asked.bytes.filter(|bytes| bytes.len() <= SHEET_MOST);
    let mut file = fields(json!({ "what": asked.what }));
    file.extend(named(asked.path));
    file.insert("sha256".to_owned(), json!(whole.map(origin::digest)));
    Value::Object(file)
}

/// A file's name for people, and its name to open it by.
#[must_use]
pub fn named(path: &Path) -> Fields {
    let opened = (!files::is_standard(path)).then(|| encoded(path));
    fields(json!({ "name": files::shown(path), "path": opened }))
}

/// A file's name by which it can be opened again, whatever bytes it has: as in a URL, what is no
/// letter, digit, or one of `-._~/` is `%` and two hexadecimal digits.
fn encoded(path: &Path) -> String {
    let mut text = String::new();
    for &byte in path.as_os_str().as_bytes() {
        if byte.is_ascii_alphanumeric() || b"-._~/".contains(&byte) {
            text.push(char::from(byte));
        } else {
            let _ = write!(text, "%{byte:02X}");
        }
    }
    text
}

/// A listing's fields: its tasks, and its pieces in the listing's order.
#[must_use]
pub fn listing(listing: &Listing) -> Fields {
    let piece = |piece: &Piece| {
        json!({
            "core": piece.core,
            "task": piece.task,
            "kind": piece.kind.word(),
            "budget": piece.budget,
            "window": piece.window,
            "jitter": piece.jitter,
            "charged": piece.charged,
        })
    };
    let pieces: Vec<Value> = listing.pieces.iter().map(piece).collect();
    fields(json!({ "answer": "planned", "tasks": listing.tasks, "pieces": pieces }))
}

/// An accepted sheet's fields: machine, costs, parts and fits, as they stand in it.
#[must_use]
pub fn sheet(sheet: &Sheet) -> Fields {
    let part = |part: &crate::quoted::Part| {
        let mut fields = fields(json!({ "name": part.name }));
        fields.extend(numbers(&TIMES, &part.times));
        Value::Object(fields)
    };
    let parts: Vec<Value> = sheet.parts.iter().map(part).collect();
    let fit = |fit: &crate::quoted::Fit| json!({ "task": fit.task, "part": fit.part });
    let fits: Vec<Value> = sheet.fits.iter().map(fit).collect();
    fields(json!({
        "machine": { "cores": sheet.cores, "grain": number(sheet.grain) },
        "costs": numbers(&COSTS, &sheet.costs),
        "parts": parts,
        "fits": fits,
    }))
}

/// Numbers of the sheet by their names.
fn numbers(names: &[&str], texts: &[&str]) -> Fields {
    (names.iter().zip(texts))
        .map(|(name, text)| ((*name).to_owned(), json!(number(text))))
        .collect()
}

/// The fields of the refusal of a file: its number, what it carries, the line, and the sentences.
#[must_use]
pub fn refused(name: &str, explained: &Explained) -> Fields {
    let line = explained.line.as_ref().map(|line| line.number);
    let no_room = || (!explained.no_room.is_empty()).then(|| explained.no_room.join("; "));
    let sentences = [
        Some(explained.meaning.clone()),
        explained.why.clone().or_else(no_room),
        Some(explained.remedy(name)),
    ];
    refusal(explained.refusal, line, sentences)
}

/// The fields of a refusal, whose sentences are what it means, why it comes here, and what to do.
#[must_use]
pub fn refusal(refusal: Refusal, line: Option<usize>, sentences: [Option<String>; 3]) -> Fields {
    let [meaning, why, remedy] = sentences;
    fields(json!({
        "answer": "refused",
        "refused": {
            "number": refusal.number(),
            "carries": refusal.carries(),
            "line": line,
            "meaning": meaning,
            "why": why,
            "remedy": remedy,
        }
    }))
}

/// A verdict's fields: which it is, and the length of an overloaded core.
#[must_use]
pub fn verdict(answer: Answer) -> Fields {
    fields(match answer {
        Answer::Passes => json!({ "answer": "passes" }),
        Answer::Overloaded(length) => json!({ "answer": "overloaded", "length": length }),
        Answer::Undecided => json!({ "answer": "undecided" }),
        Answer::Refused(refused) => {
            let remedy = Some(refused.remedy().to_owned());
            return refusal(refused, None, [Some(refused.meaning()), None, remedy]);
        }
    })
}

/// A failure's fields: the exit status and the sentence.
#[must_use]
pub fn failed(status: Status, why: Option<&str>) -> Fields {
    fields(json!({ "answer": "failed", "failed": { "status": status as u8, "why": why } }))
}

/// An answer whole, as text.
#[must_use]
pub fn text(mut begun: Fields, answer: Fields) -> String {
    begun.extend(answer);
    laid_out(&Value::Object(begun))
}

/// How a run ended. Where its answers are JSON, a failure is told as JSON too, if that can be printed.
///
/// # Errors
///
/// The failure itself.
pub fn told(
    given: &ArgMatches,
    command: &str,
    asked: &[Asked],
    done: Result<Status, Failure>,
    streams: &mut Streams,
) -> Result<Status, Failure> {
    if let (true, Err(failure)) = (given.get_flag("json"), &done) {
        let text = text(
            begun(command, asked),
            failed(failure.status, failure.why.as_deref()),
        );
        let _ = streams.print(text.as_bytes());
    }
    done
}

/// The fields of an object.
#[must_use]
pub fn fields(object: Value) -> Fields {
    match object {
        Value::Object(fields) => fields,
        _ => Fields::new(),
    }
}
