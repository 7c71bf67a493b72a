//! `report`: a plan, or a refusal, as one page that needs no network and no script. The figures are
//! the listing's and the why listings', all other words the sheet's.

mod limits;

use super::html::{escaped, section, sentence, Group};
use super::page::{Page, Rows};
use super::{cli, drawing, files, parsed, planned, quoted, show};
use super::{Failure, Planned, Status, Streams};
use crate::explain::Explained;
use crate::listing::Listing;
use crate::quoted::{Fit, Part, Sheet, COSTS, TIMES};
use crate::text::shown;
use clap::ArgMatches;
use std::fmt::Write;

/// Prints or writes the page.
///
/// # Errors
///
/// The sheet cannot be read or the page not be written.
pub fn run(given: &ArgMatches, streams: &mut Streams) -> Result<Status, Failure> {
    let (sheet, out) = (cli::needed(given, "SHEET"), cli::path(given, "out"));
    let out = out.as_deref();
    let (name, bytes) = (files::shown(&sheet), files::sheet_for(out, &sheet)?);
    let asked = Asked {
        name: &name,
        sheet: &bytes,
        unit: cli::unit(given),
    };
    match planned(&bytes)? {
        Planned::Listing(listing) => {
            let page = plan(&asked, &quoted(&bytes)?, &parsed(&listing)?, &listing)?;
            streams.deliver(out, page.as_bytes())
        }
        Planned::Refused(why) => {
            streams.say(&why.message(&name));
            streams.deliver(out, refused(&asked, &why)?.as_bytes())?;
            Ok(Status::Refused)
        }
    }
}

/// What a page is asked for.
pub struct Asked<'a> {
    /// What the sheet is called.
    pub name: &'a str,
    /// Its bytes.
    pub sheet: &'a [u8],
    /// What a tick is called.
    pub unit: &'a str,
}

/// The page of a plan.
///
/// # Errors
///
/// The library's answers do not fit together, which those of a proved library always do.
pub fn plan(
    asked: &Asked,
    sheet: &Sheet,
    listing: &Listing,
    bytes: &[u8],
) -> Result<String, Failure> {
    let (name, unit) = (asked.name, asked.unit);
    let mut body = format!(
        "<h1>Plan of {}</h1>\n<p class=\"sum\">{}.</p>\n",
        escaped(name),
        escaped(&show::sum(sheet, listing, unit))
    );
    let key = drawing::key(&[listing], "");
    let cores = |end| drawing::cores(listing, sheet.cores, end, unit);
    body.push_str(&drawing::section(&[listing], &key, cores));
    body.push_str(&limits::of_plan(asked.sheet, sheet, listing, unit)?);
    pieces(&mut body, sheet, listing, unit);
    splits(&mut body, listing, unit);
    tasks(&mut body, sheet, listing, unit);
    parts(&mut body, sheet, unit);
    machine(&mut body, sheet, unit);
    let listing = escaped(&String::from_utf8_lossy(bytes));
    let _ = write!(
        body,
        "<h2>Listing</h2>\n<pre class=\"listing\">{listing}</pre>\n"
    );
    let source = "The plan and every figure in it come";
    Ok(page(asked, format!("Plan of {name}"), body, source))
}

/// The page of a refused sheet: what was refused, where, and what to do.
///
/// # Errors
///
/// The library's answers do not fit together, which those of a proved library always do.
pub fn refused(asked: &Asked, why: &Explained) -> Result<String, Failure> {
    let name = asked.name;
    let mut body = format!("<h1>{} is refused</h1>\n", escaped(name));
    let place = match &why.line {
        Some(line) => format!(" at line {}", line.number),
        None => String::new(),
    };
    let _ = write!(
        body,
        "<p class=\"sum\">There is no plan for this sheet as it stands.</p>\n\
         <section class=\"refusal\">\n<h2>Refused ({}){place}</h2>\n{}",
        why.refusal.number(),
        sentence("", &why.meaning)
    );
    if let Some(line) = &why.line {
        let _ = writeln!(
            body,
            "<pre><span class=\"at\">{:>4}  </span>{}<mark>{}</mark>{}</pre>",
            line.number,
            escaped(&line.before),
            escaped(&line.fault),
            escaped(&line.behind)
        );
    }
    if let Some(why) = &why.why {
        body.push_str(&sentence("", why));
    }
    body.push_str(&sentence(
        "<strong>What to do.</strong> ",
        &why.remedy(name),
    ));
    body.push_str("</section>\n");
    if why.refusal.number() == 7 {
        body.push_str(&limits::of_no_room(asked.sheet, asked.unit)?);
    }
    if why.refusal.number() != 9 {
        sheet_lines(&mut body, asked.sheet, why);
    }
    let title = format!("{name} is refused");
    let source = "The refusal comes";
    Ok(page(asked, title, body, source))
}

/// The sheet's own lines, numbered, the refused one marked.
fn sheet_lines(body: &mut String, sheet: &[u8], why: &Explained) {
    body.push_str("<h2>The sheet</h2>\n<pre class=\"sheet\">");
    let refused = why.line.as_ref().map(|line| line.number);
    let sheet = sheet.strip_suffix(b"\n").unwrap_or(sheet);
    for (number, line) in (1..).zip(sheet.split(|&byte| byte == b'\n')) {
        let fields: Vec<String> = line.split(|&byte| byte == b'\t').map(shown).collect();
        let text = escaped(&fields.join("\t"));
        let line = format!("<span class=\"at\">{number:>4}  </span>{text}");
        if refused == Some(number) {
            let _ = writeln!(body, "<span class=\"bad\">{line}</span>");
        } else {
            let _ = writeln!(body, "{line}");
        }
    }
    body.push_str("</pre>\n");
}

/// Each core's pieces in placement order.
fn pieces(body: &mut String, sheet: &Sheet, listing: &Listing, unit: &str) {
    let group = |core| {
        let row = |piece| show::piece_row(sheet, piece).to_vec();
        let rows: Vec<Vec<String>> = listing.on_core(core).map(row).collect();
        let title = format!("Core {core}: {}", show::counted(rows.len(), "piece"));
        Group { title, rows }
    };
    let groups: Vec<Group> = (1..=sheet.cores).map(group).collect();
    section(body, "Pieces", unit, &show::PIECE, &groups);
}

/// The split tasks, each with its two pieces.
fn splits(body: &mut String, listing: &Listing, unit: &str) {
    let rows = show::half_rows(listing);
    let groups = rows.chunks(2).map(|rows| Group::untitled(rows.to_vec()));
    let groups: Vec<Group> = groups.collect();
    section(body, "Split tasks", unit, &show::HALF, &groups);
    if !groups.is_empty() {
        body.push_str(
            "<p class=\"note\">A last piece may come late by its jitter, which is π + IpB + RelO + TsetO.</p>\n",
        );
    }
}

/// The sheet's tasks, each with its part's times and where it is placed.
fn tasks(body: &mut String, sheet: &Sheet, listing: &Listing, unit: &str) {
    let mut head = vec!["<task", "<part"];
    head.extend(TIMES);
    head.push("<placed");
    let row = |fit: &Fit| {
        let mut row = vec![fit.task.to_owned(), fit.part.to_owned()];
        let times = sheet.part_of(fit.task).map_or([""; 6], |part| part.times);
        row.extend(times.map(str::to_owned));
        row.push(placed(listing, fit.task));
        row
    };
    let rows = Group::untitled(sheet.fits.iter().map(row).collect());
    section(body, "Tasks", unit, &head, &[rows]);
    if !sheet.fits.is_empty() {
        body.push_str(
            "<p class=\"note\">C is the work, D the deadline, T the period, J the jitter, P and M the cache charges of a \
             preemption and a migration.</p>\n",
        );
    }
}

/// Where a task is placed.
fn placed(listing: &Listing, task: &str) -> String {
    let pieces = listing.pieces.iter().filter(|piece| piece.task == task);
    let cores: Vec<String> = pieces.map(|piece| piece.core.to_string()).collect();
    format!("core {}", cores.join(", then "))
}

/// The sheet's parts, each with the tasks that are fitted with it.
fn parts(body: &mut String, sheet: &Sheet, unit: &str) {
    let mut head = vec!["<part"];
    head.extend(TIMES);
    head.push("<tasks");
    let row = |part: &Part| {
        let fits = sheet.fits.iter().filter(|fit| fit.part == part.name);
        let tasks: Vec<&str> = fits.map(|fit| fit.task).collect();
        let mut row = vec![part.name.to_owned()];
        row.extend(part.times.map(str::to_owned));
        row.push(tasks.join(", "));
        row
    };
    let rows = Group::untitled(sheet.parts.iter().map(row).collect());
    section(body, "Parts", unit, &head, &[rows]);
}

/// The machine and the costs.
fn machine(body: &mut String, sheet: &Sheet, unit: &str) {
    let mut head = vec!["cores", "grain"];
    head.extend(COSTS);
    let mut row = vec![sheet.cores.to_string(), sheet.grain.to_owned()];
    row.extend(sheet.costs.map(str::to_owned));
    let row = Group::untitled(vec![row]);
    section(body, "Machine and costs", unit, &head, &[row]);
}

/// The page around its body.
fn page(asked: &Asked, title: String, body: String, source: &str) -> String {
    let page = Page {
        title,
        body,
        source,
        sheets: &[(asked.name, asked.sheet)],
        rows: Rows::Lines,
    };
    page.text()
}
