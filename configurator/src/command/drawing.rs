//! The plan as drawings: each core a table with a row for each piece, and in it a bar. A bar is as
//! long as the piece's window, on one axis for all, and its filled beginning is the budget; the thin
//! bar below it is the charged time. A last piece stands where the window of the first ends, since
//! there it is handed over.
//!
//! A row is HTML, and only what is to scale is SVG, with places in per cent: so letters have their
//! own size on every screen, and a table that goes over several printed pages has its axis on each.

use super::axis::{Axis, AXIS};
use super::columns;
use super::html::escaped;
use crate::listing::{Kind, Listing, Piece};
use std::fmt::Write;

/// The most pieces of a core that are kept on one printed page.
const LONG: usize = 16;

/// What fills the budgets, once on the page for all drawings: the kinds differ in print too.
const PATTERNS: &str = r##"<svg class="patterns" width="0" height="0" aria-hidden="true"><defs>
<pattern id="whole" width="6" height="6" patternUnits="userSpaceOnUse"><rect width="6" height="6" fill="#2b5d8f"/></pattern>
<pattern id="first" width="6" height="6" patternUnits="userSpaceOnUse"><rect width="6" height="6" fill="#b4540a"/><path d="M-1 1 l2 -2 M0 6 l6 -6 M5 7 l2 -2" stroke="#fff" stroke-width="1.3"/></pattern>
<pattern id="last" width="6" height="6" patternUnits="userSpaceOnUse"><rect width="6" height="6" fill="#2e7d4f"/><path d="M-1 5 l2 2 M0 0 l6 6 M5 -1 l2 2" stroke="#fff" stroke-width="1.3"/></pattern>
</defs></svg>
"##;

/// What the bars mean, above every drawing of a plan.
const NOTE: &str = "<strong>A bar is not when a piece runs.</strong> It is the window that the piece must be done \
                    in, from its task's release on; a last piece's begins where the first one's ends. The filled part is the budget, \
                    the time that the piece needs at most. The thin bar below is the charged time, which has the overheads too and \
                    is what the core is judged with. When a piece runs inside its window, the machine decides as it runs.";

/// Plans drawn by `cores` on an axis that ends where it is told to, below what the bars mean and the key.
/// Where windows differ much, the beginning is drawn once more.
#[must_use]
pub fn section(listings: &[&Listing], key: &str, cores: impl Fn(u32) -> String) -> String {
    let whole = cores(longest(listings));
    let mut html =
        format!("{PATTERNS}<h2>The cores</h2>\n<p class=\"note\">{NOTE}</p>\n{key}{whole}");
    if let Some(end) = near(listings) {
        let _ = write!(
            html,
            "<h2>The same, nearer</h2>\n<p class=\"note\">The beginning of the same bars, drawn larger; an arrow marks a \
             window that goes on. <strong>Here too a bar is not when a piece runs.</strong></p>\n{}",
            cores(end)
        );
    }
    html
}

/// The end of the longest bar, where the axis of whole plans ends.
fn longest(listings: &[&Listing]) -> u32 {
    let end = |listing: &&Listing| {
        let ends = listing.pieces.iter().map(|p| start(listing, p) + p.window);
        ends.max().unwrap_or(0)
    };
    listings.iter().map(end).max().unwrap_or(0)
}

/// Where an axis ends that shows the shorter half of the windows well, if the axis of the whole does not.
fn near(listings: &[&Listing]) -> Option<u32> {
    let pieces = listings.iter().flat_map(|listing| &listing.pieces);
    let mut windows: Vec<u32> = pieces.map(|piece| piece.window).collect();
    windows.sort_unstable();
    let middle = *windows.get(windows.len() / 2)?;
    (longest(listings) / 6 > middle).then_some(2 * middle)
}

/// The drawings of a plan's cores, with an axis at each that ends at `end`.
#[must_use]
pub fn cores(listing: &Listing, cores: usize, end: u32, unit: &str) -> String {
    let drawing = Drawing::new(&[listing], end, unit);
    let chart = |core| drawing.chart(listing, core, &format!("Core {core}"), |_| Mark::NONE);
    drawing.framed(&(1..=cores).map(chart).collect::<String>())
}

/// What the charts of one drawing share: the axis, what is written above it, and how many letters stand
/// before and behind the bars.
pub struct Drawing {
    axis: Axis,
    caption: String,
    names: usize,
    figures: usize,
}

/// How a piece's row is set apart: by a class, by a sign before its name, and in words behind its title.
#[derive(Clone, Copy, Debug, PartialEq, Eq)]
pub struct Mark {
    /// The row's class, if it has one.
    pub class: &'static str,
    /// The sign, if there is one.
    pub sign: &'static str,
    /// The words.
    pub words: &'static str,
}

impl Mark {
    /// The row is like any other.
    pub const NONE: Mark = Mark::new("", "", "");

    /// A mark of that class.
    #[must_use]
    pub const fn new(class: &'static str, sign: &'static str, words: &'static str) -> Self {
        Mark { class, sign, words }
    }

    /// The sign, as HTML.
    #[must_use]
    pub fn drawn(self) -> String {
        match self.sign {
            "" => String::new(),
            sign => format!("<b class=\"sign\">{sign}</b> "),
        }
    }
}

impl Drawing {
    /// A drawing of cores of these plans, on an axis that ends at `end`.
    #[must_use]
    pub fn new(listings: &[&Listing], end: u32, unit: &str) -> Self {
        let caption = format!("{unit} after release");
        let widest = |words: &dyn Fn(&Piece) -> String| {
            let pieces = listings.iter().flat_map(|listing| &listing.pieces);
            let letters = pieces.map(|piece| words(piece).chars().count());
            letters.max().unwrap_or(0)
        };
        Drawing {
            axis: Axis::new(end.into()),
            names: widest(&label).max("Core 16".len()),
            figures: widest(&figures).max(columns::width(&caption)),
            caption,
        }
    }

    /// The drawing, around its charts.
    #[must_use]
    pub fn framed(&self, charts: &str) -> String {
        format!(
            "<div class=\"charts\" style=\"--names: {}ch; --figures: {}ch\">\n{charts}</div>\n",
            self.names, self.figures
        )
    }

    /// The chart of a plan's core under that title, with a row for each piece.
    #[must_use]
    pub fn chart(
        &self,
        listing: &Listing,
        core: usize,
        title: &str,
        mark: impl Fn(&Piece) -> Mark,
    ) -> String {
        let pieces = listing.on_core(core).count();
        if pieces == 0 {
            return none(title, "no pieces");
        }
        let mut html = format!(
            "<table class=\"chart{}\">\n<colgroup><col class=\"names\"/><col/><col class=\"figures\"/></colgroup>\n\
             <thead><tr><th>{title}</th><td class=\"to-scale\">{}</td><td class=\"figures\">{}</td></tr></thead>\n\
             <tbody>\n",
            if pieces > LONG { " long" } else { "" },
            self.axis.drawn(),
            escaped(&self.caption)
        );
        for piece in listing.on_core(core) {
            let mark = mark(piece);
            let class = match mark.class {
                "" => String::new(),
                class => format!(" class=\"{class}\""),
            };
            let _ = writeln!(
                html,
                "<tr{class}><th>{}{}</th><td class=\"to-scale\">{}</td><td class=\"figures\">{}</td></tr>",
                mark.drawn(),
                escaped(&label(piece)),
                bar(&self.axis, piece, start(listing, piece), mark.words),
                figures(piece)
            );
        }
        html + "</tbody>\n</table>\n"
    }
}

/// What stands in place of a chart.
#[must_use]
pub fn none(title: &str, words: &str) -> String {
    format!("<p class=\"none\"><strong>{title}</strong>: {words}</p>\n")
}

/// When a piece's window begins, behind its task's release.
fn start(listing: &Listing, piece: &Piece) -> u32 {
    match piece.kind {
        Kind::Last => listing.first_of(piece.task).map_or(0, |first| first.window),
        Kind::Whole | Kind::First => 0,
    }
}

/// What is written before a bar.
fn label(piece: &Piece) -> String {
    match piece.kind {
        Kind::Whole => piece.task.to_owned(),
        Kind::First | Kind::Last => format!("{}, {}", piece.task, piece.kind.word()),
    }
}

/// What is written behind a bar.
fn figures(piece: &Piece) -> String {
    let (budget, window, charged) = (piece.budget, piece.window, piece.charged);
    format!("{budget} in {window}, charged {charged}")
}

/// A piece's bar: its window with the budget inside, the charged time below.
fn bar(axis: &Axis, piece: &Piece, start: u32, words: &str) -> String {
    let (word, task) = (piece.kind.word(), escaped(piece.task));
    let mut svg = format!(
        "<svg class=\"piece {word}\" role=\"img\"><title>{task}, {word}, core {}: budget {} in a window of {}, \
         jitter {}, charged {}{words}</title>",
        piece.core, piece.budget, piece.window, piece.jitter, piece.charged
    );
    for (_, x) in axis.numbers() {
        let _ = write!(
            svg,
            "<line class=\"grid\" x1=\"{x:.3}%\" x2=\"{x:.3}%\" y2=\"100%\"/>"
        );
    }
    let from = axis.at(start.into());
    let to = |length: u32| u64::from(start) + u64::from(length);
    let long = |length: u32| axis.at(to(length)) - from;
    if start > 0 {
        let _ = write!(
            svg,
            "<line class=\"wait\" x2=\"{from:.3}%\" y1=\"9\" y2=\"9\"/>"
        );
    }
    if u64::from(start) < axis.end() {
        for (class, y, length, height) in [
            ("window", 3, piece.window, 12),
            ("budget", 3, piece.budget, 12),
            ("charged", 17, piece.charged, 4),
        ] {
            let _ = write!(
                svg,
                "<rect class=\"{class}\" x=\"{from:.3}%\" y=\"{y}\" width=\"{:.3}%\" height=\"{height}\"/>",
                long(length)
            );
        }
    }
    if to(piece.window) > axis.end() {
        let _ = write!(
            svg,
            "<svg x=\"{AXIS}%\"><path class=\"beyond\" d=\"M3 3 l6 6 l-6 6 z\"/></svg>"
        );
    }
    svg + "</svg>"
}

/// A bar, for the page's key.
const BAR: &str = "<rect class=\"window\" x=\"1\" y=\"3\" width=\"32\" height=\"12\"/>\
                   <rect class=\"budget\" x=\"1\" y=\"3\" width=\"16\" height=\"12\"/>";

/// A small sample of each kind that the plans have, for the page's key; then what else is in it.
#[must_use]
pub fn key(listings: &[&Listing], more: &str) -> String {
    let charged = "<rect class=\"charged\" x=\"1\" y=\"8\" width=\"32\" height=\"4\"/>";
    let mut key = "<p class=\"key\">".to_owned();
    key.push_str(&sample("whole", BAR, "whole task: budget in its window"));
    if listings.iter().any(|listing| !listing.splits().is_empty()) {
        key.push_str(&sample("first", BAR, "first piece of a split task"));
        key.push_str(&sample("last", BAR, "last piece"));
    }
    key + &sample("whole", charged, "charged time") + more + "</p>\n"
}

/// A sample of pieces whose rows are marked so, for the page's key.
#[must_use]
pub fn sample_of(mark: Mark, words: &str) -> String {
    sample(&format!("whole {}", mark.class), BAR, words)
}

fn sample(class: &str, shapes: &str, words: &str) -> String {
    format!(
        "<span><svg class=\"piece {class}\" aria-hidden=\"true\">{shapes}</svg>{words}</span>\n"
    )
}
