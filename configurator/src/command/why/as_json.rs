//! What cores are asked for, as JSON.

use super::Told;
use crate::command::json::{self, Fields};
use crate::why::{Share, Verdict, Why};
use serde_json::{json, Value};

/// The verdict, where there is one core or all pass, or the refusal of a sheet with no room; then each
/// core's figures.
#[must_use]
pub fn fields(told: &Told, refused: Option<Fields>) -> Fields {
    let mut fields = json::fields(json!({ "unit": told.unit }));
    match (&told.cores[..], refused) {
        (_, Some(refused)) => fields.extend(refused),
        ([(_, why)], None) if why.verdict == Verdict::Overloaded => {
            let answer = json!({ "answer": why.verdict.word(), "length": why.length });
            fields.extend(json::fields(answer));
        }
        ([(_, why), ..], None) => {
            fields.extend(json::fields(json!({ "answer": why.verdict.word() })));
        }
        ([], None) => {}
    }
    let stuck = told
        .stuck()
        .map(|stuck| json!({ "place": stuck.place, "task": stuck.task, "core": stuck.core }));
    fields.insert("no_room".to_owned(), json!(stuck));
    let cores: Vec<Value> = told.cores.iter().map(|(at, why)| core(*at, why)).collect();
    fields.insert("cores".to_owned(), Value::Array(cores));
    fields
}

/// One core. Where the walk stuck, it is the last.
fn core(at: Option<usize>, why: &Why) -> Value {
    let named = |share: &Share| match at {
        Some(_) => json!({ "task": share.name }),
        None => json!({ "record": share.name.parse::<u32>().ok() }),
    };
    let piece = |share: &Share| {
        let mut piece = json::fields(named(share));
        piece.extend(json::fields(json!({
            "kind": share.kind.word(),
            "jobs": share.jobs,
            "demand": share.demand,
            "interrupts": share.interrupts,
        })));
        Value::Object(piece)
    };
    json!({
        "core": why.stuck.map(|stuck| stuck.core).or(at),
        "answer": why.verdict.word(),
        "length": why.length,
        "blocking": why.blocking,
        "pieces": why.shares.iter().map(piece).collect::<Vec<_>>(),
        "total": why.sum.map(|sum| sum.total),
        "slack": why.sum.map(|sum| sum.slack),
    })
}
