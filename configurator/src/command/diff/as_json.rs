//! What moved, as JSON.

use super::Two;
use crate::command::json::{self, Fields};
use crate::diff::{Diff, Fate, Piece, Task, FIELDS};
use crate::explain::Explained;
use serde_json::{json, Value};

/// Whether anything moved, the counts, and each task that did with both sets of its pieces.
#[must_use]
pub fn moved(diff: &Diff) -> Fields {
    let answer = if diff.tasks.is_empty() {
        "same"
    } else {
        "moved"
    };
    json::fields(json!({
        "answer": answer,
        "counts": {
            "first": diff.plans[0],
            "second": diff.plans[1],
            "moved": diff.count(Fate::Moved),
            "came": diff.count(Fate::Came),
            "went": diff.count(Fate::Went),
            "stayed": diff.stayed(),
        },
        "differences": diff.tasks.iter().map(task).collect::<Vec<_>>(),
    }))
}

fn task(task: &Task) -> Value {
    let pieces = |pieces: &[Piece]| pieces.iter().map(piece).collect::<Vec<_>>();
    json!({ "task": task.name, "was": pieces(&task.was), "now": pieces(&task.now) })
}

fn piece(piece: &Piece) -> Value {
    let mut fields = json::fields(json!({ "core": piece.core, "kind": piece.kind.word() }));
    let figures = FIELDS[2..].iter().zip(piece.figures);
    fields.extend(figures.map(|(name, figure)| ((*name).to_owned(), json!(figure))));
    Value::Object(fields)
}

/// The refusals, each with the place of its sheet in `files`, from 0: the library's answer, and where both
/// sheets are refused, the second's too.
#[must_use]
pub fn refused(two: &Two, refused: &[(usize, Explained)]) -> Fields {
    let mut fields = Fields::new();
    for (name, (at, why)) in ["refused", "also_refused"].iter().zip(refused) {
        let mut told = json::refused(two.names[*at], why);
        if let Some(Value::Object(mut refused)) = told.remove("refused") {
            refused.insert("sheet".to_owned(), json!(at + 1));
            fields.extend(told);
            fields.insert((*name).to_owned(), Value::Object(refused));
        }
    }
    fields
}
