//! A batch as JSON. Names are such that files can be opened by them from where the command ran.

use super::{Answer, Batch, Outcome};
use crate::command::json::{self, Asked, Fields};
use crate::command::{files, Status};
use serde_json::{json, Value};
use std::path::{Path, PathBuf};

/// What became of all, as one object.
#[must_use]
pub fn text(folder: &Path, batch: &Batch) -> String {
    let with = |name: &PathBuf, more: Value| {
        let mut fields = json::named(&folder.join(name));
        fields.extend(json::fields(more));
        Value::Object(fields)
    };
    let skipped = batch.skipped.iter();
    let unread = batch.unread.iter();
    let mentioned = batch.mentioned.iter();
    let sheets = batch.sheets.iter().map(|sheet| outcome(folder, sheet));
    let answer = match batch.status() {
        Status::Accepted => "planned",
        Status::Refused => "refused",
        _ => "failed",
    };
    let fields = json::fields(json!({
        "answer": answer,
        "sheets": sheets.map(Value::Object).collect::<Vec<_>>(),
        "skipped": skipped.map(|(name, what)| with(name, json!({ "is": what }))).collect::<Vec<_>>(),
        "other_case": mentioned.map(|name| with(name, json!({}))).collect::<Vec<_>>(),
        "unread": unread.map(|(name, why)| with(name, json!({ "why": why }))).collect::<Vec<_>>(),
    }));
    let asked = [Asked::new("folder", folder, None)];
    json::text(json::begun("batch", &asked), fields)
}

/// What became of one sheet.
fn outcome(folder: &Path, outcome: &Outcome) -> Fields {
    let path = folder.join(&outcome.name);
    let mut fields = json::named(&path);
    fields.insert("sha256".to_owned(), json!(outcome.digest));
    let older = outcome.older.as_deref().map(json::named);
    fields.insert("older".to_owned(), json!(older));
    fields.extend(match &outcome.answer {
        Answer::Planned { tasks, pieces } => {
            json::fields(json!({ "answer": "planned", "tasks": tasks, "pieces": pieces }))
        }
        Answer::Refused(why) => json::refused(&files::shown(&path), why),
        Answer::Failed { message, .. } => json::failed(Status::Failed, Some(message)),
    });
    fields
}
