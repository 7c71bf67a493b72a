//! Two plans side by side, as one page: each core drawn as it was and as it is now, with what moved set
//! apart, and below it the figures.

use super::{marked, sentence, Two};
use crate::command::drawing::{self, Drawing, Mark};
use crate::command::html::{capital, escaped, section, Group};
use crate::command::page::{Page, Rows};
use crate::command::{parsed, planned, quoted, show, Failure, Planned};
use crate::diff::{self, Diff, Fate, Task, FIELDS};
use crate::listing::{Listing, Piece};
use crate::quoted::Sheet;
use std::fmt::Write;

/// How the plans are called, in their order.
const CALLED: [&str; 2] = ["was", "now"];

const MOVED: Mark = Mark::new("moved", "≠", ", moved");
const CAME: Mark = Mark::new("moved came", "+", ", only in the second plan");
const WENT: Mark = Mark::new("moved went", "−", ", only in the first plan");
const STAYED: Mark = Mark::new("stayed", "", "");

/// A plan that is drawn: its sheet's words and its listing.
struct Plan<'a> {
    sheet: Sheet<'a>,
    listing: Listing<'a>,
}

/// The page of two accepted sheets.
///
/// # Errors
///
/// The library's answers do not fit together, which those of a proved library always do.
pub fn side_by_side(two: &Two, diff: &Diff) -> Result<String, Failure> {
    let listings = [listing(two.sheets[0])?, listing(two.sheets[1])?];
    let plan = |at: usize| {
        Ok::<_, Failure>(Plan {
            sheet: quoted(two.sheets[at])?,
            listing: parsed(&listings[at])?,
        })
    };
    let plans = [plan(0)?, plan(1)?];
    let mut body = format!(
        "<h1>What moved</h1>\n<p class=\"sum\">{}.</p>\n",
        capital(&sentence(diff))
    );
    for (at, Plan { sheet, listing }) in plans.iter().enumerate() {
        let sum = show::sum(sheet, listing, two.unit);
        let _ = writeln!(
            body,
            "<p class=\"plan\"><strong>{}</strong> {}: {}.</p>",
            capital(CALLED[at]),
            escaped(two.names[at]),
            escaped(&sum)
        );
    }
    let both = [&plans[0].listing, &plans[1].listing];
    let cores = |end| cores(&plans, diff, end, two.unit);
    let key = drawing::key(&both, &marks());
    body.push_str(&drawing::section(&both, &key, cores));
    figures(&mut body, diff, two.unit);
    let page = Page {
        title: format!("What moved from {} to {}", two.names[0], two.names[1]),
        body,
        source: "Both plans and every figure in them come",
        sheets: &[(two.names[0], two.sheets[0]), (two.names[1], two.sheets[1])],
        rows: Rows::Stacked,
    };
    Ok(page.text())
}

/// The listing of an accepted sheet.
fn listing(sheet: &[u8]) -> Result<Vec<u8>, Failure> {
    match planned(sheet)? {
        Planned::Listing(listing) => Ok(listing),
        Planned::Refused(why) => Err(Failure::new(why.refusal.to_string())),
    }
}

/// What the marks mean, for the key.
fn marks() -> String {
    let signs = [
        (MOVED, "another piece than in the other plan"),
        (WENT, "only in the first plan"),
        (CAME, "only in the second"),
    ]
    .map(|(mark, words)| {
        let (class, sign) = (mark.class, mark.drawn());
        format!("<span class=\"{class}\">{sign}{words}</span>\n")
    });
    signs.concat() + &drawing::sample_of(STAYED, "the same in both")
}

/// Each core that a plan has, as it was and as it is now.
fn cores(plans: &[Plan; 2], diff: &Diff, end: u32, unit: &str) -> String {
    let both = [&plans[0].listing, &plans[1].listing];
    let drawing = Drawing::new(&both, end, unit);
    let most = plans.iter().map(|plan| plan.sheet.cores).max();
    let mut charts = String::new();
    for core in 1..=most.unwrap_or(0) {
        charts.push_str("<div class=\"beside\">\n");
        for (at, Plan { sheet, listing }) in plans.iter().enumerate() {
            let title = format!("Core {core} {}", CALLED[at]);
            let mark = |piece: &Piece| mark(diff, piece, at);
            charts.push_str(&if core > sheet.cores {
                drawing::none(&title, "not in this machine")
            } else {
                drawing.chart(listing, core, &title, mark)
            });
        }
        charts.push_str("</div>\n");
    }
    drawing.framed(&charts)
}

/// How a piece of the plan of that place is set apart. Of a task that moved, a piece that is the same in
/// both plans is not.
fn mark(diff: &Diff, piece: &Piece, at: usize) -> Mark {
    let task = match diff.task(piece.task) {
        Some(task) => task,
        None => return STAYED,
    };
    let (own, other) = if at == 0 {
        (&task.was, &task.now)
    } else {
        (&task.now, &task.was)
    };
    let same = |own: &&diff::Piece| own.core == piece.core && own.kind == piece.kind;
    let stayed = own
        .iter()
        .find(same)
        .map_or(false, |own| other.contains(own));
    match task.fate() {
        _ if stayed => STAYED,
        Fate::Moved => MOVED,
        Fate::Came => CAME,
        Fate::Went => WENT,
    }
}

/// The figures of what moved: a group for each task, in the lines' order.
fn figures(body: &mut String, diff: &Diff, unit: &str) {
    let mut head = vec!["<plan"];
    head.extend(FIELDS.map(|field| if field == "kind" { "<kind" } else { field }));
    let group = |task: &Task| {
        let was = task.was.iter().map(|piece| (CALLED[0], marked(piece, &[])));
        let now = task
            .now
            .iter()
            .map(|piece| (CALLED[1], marked(piece, &task.was)));
        let rows = was.chain(now).map(|(word, fields)| {
            let fields = fields.iter().map(|field| field.trim_start().to_owned());
            [word.to_owned()].into_iter().chain(fields).collect()
        });
        Group {
            title: format!("{}: {}", task.name, fate(task)),
            rows: rows.collect(),
        }
    };
    let groups: Vec<Group> = diff.tasks.iter().map(group).collect();
    section(body, "Figures", unit, &head, &groups);
    if !groups.is_empty() {
        body.push_str(
            "<p class=\"note\">* is before what changed. P and M are the cache charges of a preemption and a migration. \
             The charged time is no part of the comparison, and neither is the order on a core.</p>\n",
        );
    }
}

/// What became of a task, in words.
fn fate(task: &Task) -> String {
    let on = |pieces: &[diff::Piece]| {
        let cores: Vec<String> = pieces.iter().map(|piece| piece.core.to_string()).collect();
        let many = if cores.len() > 1 { "s" } else { "" };
        format!("core{many} {}", cores.join(" and "))
    };
    let (was, now) = (on(&task.was), on(&task.now));
    match task.fate() {
        Fate::Came => format!("only in the second plan, {now}"),
        Fate::Went => format!("only in the first plan, {was}"),
        Fate::Moved if was == now => format!("{now} as before, with other figures"),
        Fate::Moved => format!("from {was} to {now}"),
    }
}
