//! What cores are asked for, as tables that a person reads on a terminal of 80 columns.

use super::Told;
use crate::command::columns::{self, width};
use crate::command::show::{heading, Paint, COLUMNS, INDENT};
use crate::why::{words, Share, Why};
use std::fmt::Write;
use std::mem;

/// The headers of a task's piece.
pub const TASK: [&str; 5] = ["<task", "<kind", "jobs due", "demand", "interrupts"];

/// Each core with its verdict in words, a row for each piece, and the sum.
#[must_use]
pub fn text(told: &Told, paint: Paint) -> String {
    let about = match (told.stuck(), &told.cores[..]) {
        (Some(stuck), _) => format!("no room for task {}, `{}`", stuck.place, stuck.task),
        (None, [(None, _)]) => "what is asked of the core".to_owned(),
        _ => "what is asked of its cores".to_owned(),
    };
    let said = format!("{about}; times in {}", told.unit);
    let mut text = heading(told.name, &said, paint);
    for (core, why) in &told.cores {
        let (subject, verdict) = (words::subject(why, *core), words::verdict(why));
        let _ = writeln!(text, "\n{} {verdict}", paint.on(Paint::BOLD, &subject));
        for line in wrapped(&words::figures(why, told.unit)) {
            let _ = writeln!(text, "{INDENT}{line}");
        }
        pieces(&mut text, why, core.is_some(), paint);
    }
    text
}

/// A sentence as lines that have room on a terminal: where it is too long, its parts stand below each
/// other.
fn wrapped(sentence: &str) -> Vec<String> {
    let fits = |text: &str| INDENT.len() + width(text) <= COLUMNS;
    let parts: Vec<&str> = if fits(sentence) {
        vec![sentence]
    } else {
        sentence.split_inclusive("; ").map(str::trim_end).collect()
    };
    let mut lines: Vec<String> = Vec::new();
    for part in parts {
        let mut line = String::new();
        for word in part.split(' ') {
            if !line.is_empty() && !fits(&format!("{line} {word}")) {
                lines.push(mem::take(&mut line));
            }
            let between = if line.is_empty() { "" } else { " " };
            line = line + between + word;
        }
        lines.push(line);
    }
    lines
}

/// A core's rows, and the sum below them.
fn pieces(text: &mut String, why: &Why, of_tasks: bool, paint: Paint) {
    let sum = match why.sum {
        Some(sum) => sum,
        None => return,
    };
    let mut head = TASK;
    if !of_tasks {
        head[0] = "record";
    }
    let rows: Vec<Vec<String>> = why.shares.iter().map(row).collect();
    let lines = columns::lines(&head, &rows);
    let _ = writeln!(text, "{INDENT}{}", paint.on(Paint::DIM, &lines[0]));
    for line in &lines[1..] {
        let _ = writeln!(text, "{INDENT}{line}");
    }
    let (blocking, total, slack) = (why.blocking, sum.total, sum.slack);
    let _ = writeln!(
        text,
        "{INDENT}with blocking {blocking}: total {total}, slack {slack}"
    );
}

/// A piece's fields, in the listing's order.
#[must_use]
pub fn row(share: &Share) -> Vec<String> {
    let figures = [share.jobs, share.demand, share.interrupts];
    let names = [share.name, share.kind.word()].map(str::to_owned);
    let figures = figures.map(|figure| figure.to_string());
    names.into_iter().chain(figures).collect()
}
