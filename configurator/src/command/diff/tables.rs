//! What moved, as tables that a person reads on a terminal of 80 columns.

use super::{marked, sentence, Two};
use crate::command::columns;
use crate::command::show::{counted, fit, Paint, Tables, INDENT};
use crate::diff::{Diff, Fate, Piece, Task, FIELDS};
use std::fmt::Write;

/// The tasks that moved, each with its pieces in both plans, those that only one plan has, and the
/// sentence.
#[must_use]
pub fn text(two: &Two, diff: &Diff, paint: Paint) -> String {
    let mut heading = format!("what moved between two plans; times in {}\n", two.unit);
    for (at, called) in ["first: ", "second:"].iter().enumerate() {
        let tasks = counted(diff.plans[at], "task");
        let name = paint.on(Paint::BOLD, two.names[at]);
        let _ = writeln!(heading, "{INDENT}{called} {tasks}, {name}");
    }
    let mut tables = Tables::below(heading, paint);
    for (fate, title, note) in [
        (Fate::Moved, "moved", "; * is before what changed"),
        (Fate::Went, "only in the first", ""),
        (Fate::Came, "only in the second", ""),
    ] {
        let tasks: Vec<&Task> = diff.of(fate).collect();
        if !tasks.is_empty() {
            let count = counted(tasks.len(), "task") + note;
            let lines = lines(&tasks, fate);
            let painted: Vec<String> = lines[1..]
                .iter()
                .map(|l| in_colour(l, fate, paint))
                .collect();
            tables.add(title, &count, &lines[0], &painted);
        }
    }
    let _ = writeln!(tables.text, "\n{}", paint.on(Paint::BOLD, &sentence(diff)));
    tables.text
}

/// The lines of a table of tasks, the header first. Each name stands once, before its pieces; where names
/// are too long for that, above them.
fn lines(tasks: &[&Task], fate: Fate) -> Vec<String> {
    let moved = fate == Fate::Moved;
    let plan = |word: &'static str| moved.then_some(word);
    let kind = if moved { "< kind" } else { "<kind" };
    let mut head: Vec<&str> = ["<task"].into_iter().chain(plan("<plan")).collect();
    head.extend(FIELDS.map(|field| if field == "kind" { kind } else { field }));
    let fields = |piece: &Piece, was: &[Piece]| match fate {
        Fate::Moved => marked(piece, was),
        Fate::Came | Fate::Went => piece.fields().to_vec(),
    };
    let mut rows: Vec<Vec<String>> = Vec::new();
    for task in tasks {
        let was = task.was.iter().map(|piece| ("was", fields(piece, &[])));
        let now = task
            .now
            .iter()
            .map(|piece| ("now", fields(piece, &task.was)));
        for (at, (word, fields)) in was.chain(now).enumerate() {
            let name = if at == 0 { task.name } else { "" };
            let names = [name].into_iter().chain(plan(word));
            rows.push(names.map(str::to_owned).chain(fields).collect());
        }
    }
    let mut lines = columns::lines(&head, &rows);
    if !fit(&lines) {
        head.remove(0);
        let names: Vec<String> = rows.iter_mut().map(|row| row.remove(0)).collect();
        let below = columns::lines(&head, &rows);
        lines = vec![format!("{INDENT}{}", below[0])];
        for (name, line) in names.into_iter().zip(&below[1..]) {
            lines.extend(Some(name).filter(|name| !name.is_empty()));
            lines.push(format!("{INDENT}{line}"));
        }
    }
    lines
}

/// A line in the colours of what became of its task. Of a task that moved the marked fields alone have one.
fn in_colour(line: &str, fate: Fate, paint: Paint) -> String {
    let field = |field: &str| {
        let new = Paint(paint.0 && field.starts_with('*'));
        new.on(Paint::NEW, field)
    };
    match fate {
        Fate::Moved => line.split(' ').map(field).collect::<Vec<_>>().join(" "),
        Fate::Came => paint.on(Paint::NEW, line),
        Fate::Went => paint.on(Paint::GONE, line),
    }
}
