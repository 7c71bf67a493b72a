//! How near cores are to their limits, as a part of the report: in words and drawn, from the library's
//! why listings and its demand.

use crate::command::html::{escaped, table, Group};
use crate::command::why::tables;
use crate::command::{curve, quoted, reasons, Failure};
use crate::demand::Core;
use crate::listing::Listing;
use crate::quoted::Sheet;
use crate::why_core;
use std::fmt::Write;

/// What the drawings show.
const NOTE: &str = "Across stands a length of time, upwards what the core can be asked for within that length, overheads \
                    counted. <strong>On a core that passes the staircase is nowhere above the line from the first deadline \
                    on.</strong> To the left of that no job is due, and nothing is judged.";

/// Each core of a plan; nothing of a plan without pieces.
///
/// # Errors
///
/// The library's answers do not fit together, which those of a proved library always do.
pub fn of_plan(
    bytes: &[u8],
    sheet: &Sheet,
    listing: &Listing,
    unit: &str,
) -> Result<String, Failure> {
    if listing.pieces.is_empty() {
        return Ok(String::new());
    }
    let mut html = section("How near each core is to its limit", true, unit);
    for at in 1..=sheet.cores {
        let text = asked(bytes, at)?;
        let why = reasons(&text)?;
        if why.shares.is_empty() {
            let _ = writeln!(
                html,
                "<p class=\"none\"><strong>Core {at}</strong>: no pieces</p>"
            );
        } else {
            let core = Core::planned(at, listing, sheet, &why)?.ok_or_else(unfit)?;
            html.push_str(&curve::figure(at, &why, &core, unit));
        }
    }
    Ok(html)
}

/// The last core of a sheet with no room, with the whole task added that has none.
///
/// # Errors
///
/// The library's answers do not fit together, which those of a proved library always do.
pub fn of_no_room(bytes: &[u8], unit: &str) -> Result<String, Failure> {
    let text = asked(bytes, 1)?;
    let why = reasons(&text)?;
    let core = Core::stuck(&quoted(bytes)?, &why)?.ok_or_else(unfit)?;
    let mut html = section("Why there is no room", false, unit);
    html.push_str(&curve::figure(1, &why, &core, unit));
    let rows = why.shares.iter().map(tables::row).collect();
    let mut groups = vec![Group::untitled(rows)];
    if let Some(sum) = why.sum {
        let row =
            |name: &str, figure: String| ["", "", name, &figure, ""].map(str::to_owned).to_vec();
        groups.push(Group {
            title: "All of these".to_owned(),
            rows: vec![
                row("with blocking", why.blocking.to_string()),
                row("total", sum.total.to_string()),
                row("slack", sum.slack.to_string()),
            ],
        });
    }
    html.push_str(&table(&tables::TASK, &groups));
    Ok(html)
}

/// The beginning of a part, about cores that pass or one that does not.
fn section(title: &str, pass: bool, unit: &str) -> String {
    let unit = escaped(unit);
    format!(
        "<h2>{title} <small>times in {unit}</small></h2>\n<p class=\"note\">{NOTE}</p>\n{}",
        curve::key(pass)
    )
}

/// The why listing of a core, of a sheet that the library has read.
fn asked(sheet: &[u8], core: usize) -> Result<Vec<u8>, Failure> {
    let core = u64::try_from(core).unwrap_or(u64::MAX);
    why_core(sheet, core)?.map_err(|refusal| Failure::new(refusal.to_string()))
}

/// The records that were drawn from are not those of the why listing.
fn unfit() -> Failure {
    Failure::new("the library's figures do not fit together: this is a fault of the program".into())
}
