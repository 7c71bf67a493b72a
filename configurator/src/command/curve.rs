//! What a core is asked for, drawn: the demand g(t) against the length t as a staircase, the line g = t,
//! and a mark at the length that the core's why listing names. Every value is the library's.
//!
//! As in the other drawings places are in per cent, so letters have their own size on every screen. Only
//! the staircase stands in a box of its own that is stretched to the drawing.

use super::axis::{share, Axis, AXIS};
use super::html::{escaped, sentence};
use crate::demand::Core;
use crate::why::{words, Verdict, Why};
use std::fmt::Write;

/// How much of a drawing's height its values take, in per cent; above them stands what the mark says.
const HEIGHT: f64 = 90.0;

/// The size of the staircase's own box.
const BOX: f64 = 10_000.0;

/// From this number on the last one of an axis stands to the left of its line.
const LONG: u64 = 1_000_000;

/// The greatest length that the library answers for.
const LENGTH_MOST: u64 = 101_000_000;

/// What the lines and areas of the drawings are; the last is drawn only if a core does not pass.
const KEY: [&str; 5] = [
    r#"<path class="stairs" d="M1 15H9V10H19V6H33"/></svg>asked for within a length: g"#,
    r#"<line class="limit" x1="1" y1="17" x2="33" y2="1"/></svg>the length itself: g = t"#,
    r#"<line class="named" x1="17" x2="17" y2="18"/><circle class="named" cx="17" cy="9" r="4"/></svg>the length that is named"#,
    r#"<rect class="unjudged" x="1" y="2" width="32" height="14"/></svg>no job is due yet, nothing is judged"#,
    r#"<rect class="over" x="1" y="2" width="32" height="14"/></svg>more than fits"#,
];

/// The key of the drawings of cores that pass, or of one that does not.
#[must_use]
pub fn key(pass: bool) -> String {
    let shown = &KEY[..KEY.len() - usize::from(pass)];
    let sample =
        |shown| format!("<span><svg class=\"sample\" aria-hidden=\"true\">{shown}</span>\n");
    let samples: String = shown.iter().map(sample).collect();
    format!("<p class=\"key\">\n{samples}</p>\n")
}

/// A core's figures in words, and its drawings. It is not empty.
#[must_use]
pub fn figure(at: usize, why: &Why, core: &Core, unit: &str) -> String {
    let said = words::sentences(why, Some(at), unit);
    let said: String = said.iter().map(|said| sentence("", said)).collect();
    let title = format!(
        "{}: what is asked for within lengths up to",
        words::subject(why, Some(at)).replace('`', "")
    );
    let ends = ends(why.length, core.largest_window).into_iter();
    let plots = ends.map(|end| Plot::new(why, core, end).drawn(&title, unit));
    format!(
        "<figure class=\"demand\">\n<figcaption>\n{said}</figcaption>\n<div class=\"plots\">\n{}</div>\n</figure>\n",
        plots.collect::<String>()
    )
}

/// Where the drawings of a core end. The last has both the named length and the largest window in it;
/// where one of the two is much the shorter, a drawing before that shows it larger.
fn ends(named: u64, window: u64) -> Vec<u64> {
    let all = named.max(window);
    let all = (all + all / 8 + 1).min(LENGTH_MOST);
    let near = named.min(window) * 25 / 16;
    if near > 0 && all / 4 > near {
        vec![near, all]
    } else {
        vec![all]
    }
}

/// How many numbers behind the 0 have room below a drawing on a phone, the longer the fewer.
fn room(end: u64) -> u64 {
    match end {
        0..=99_999 => 5,
        100_000..=9_999_999 => 3,
        _ => 1,
    }
}

/// One drawing.
struct Plot<'a> {
    why: &'a Why<'a>,
    core: &'a Core,
    /// Lengths, across.
    across: Axis,
    /// What is asked for, from below.
    up: Axis,
    steps: Vec<(u64, u64)>,
}

impl<'a> Plot<'a> {
    fn new(why: &'a Why, core: &'a Core, end: u64) -> Self {
        let steps = core.stairs(end, why.length).steps;
        let top = steps.iter().map(|step| step.1).max().unwrap_or(0);
        Plot {
            why,
            core,
            across: Axis::of(room(end), end),
            up: Axis::new(top.max(end)),
            steps,
        }
    }

    /// Where a length stands, in per cent from the left.
    fn x(&self, length: u64) -> f64 {
        self.across.at(length)
    }

    /// Where a demand stands, in per cent from above.
    fn y(&self, demand: u64) -> f64 {
        100.0 - HEIGHT * share(demand.min(self.up.end()), self.up.end())
    }

    fn drawn(&self, title: &str, unit: &str) -> String {
        let greatest = self.up.numbers().last().map_or(0, |(number, _)| number);
        format!(
            "<div class=\"plot\" style=\"--digits: {}ch\">\n{}\n\
             <svg class=\"plane\" role=\"img\"><title>{} {} {}</title>{}{}{}</svg>\n{}\n</div>\n",
            greatest.to_string().len(),
            self.levels(),
            escaped(title),
            self.across.end(),
            escaped(unit),
            self.ground(),
            self.stairs(),
            self.mark(),
            self.lengths(),
        )
    }

    /// The numbers beside the drawing.
    fn levels(&self) -> String {
        let mut svg = "<svg class=\"levels\" aria-hidden=\"true\">".to_owned();
        for (number, _) in self.up.numbers() {
            let y = self.y(number);
            let _ = write!(svg, "<text x=\"100%\" y=\"{y:.3}%\">{number}</text>");
        }
        svg + "</svg>"
    }

    /// The numbers below it.
    fn lengths(&self) -> String {
        let mut svg = "<svg class=\"lengths\" aria-hidden=\"true\">".to_owned();
        for (number, x) in self.across.numbers() {
            // a long number at the end has no room at its right
            let class = if number >= LONG && x > 90.0 {
                " class=\"left\""
            } else {
                ""
            };
            let _ = write!(svg, "<text{class} x=\"{x:.3}%\" y=\"14\">{number}</text>");
        }
        svg + "</svg>"
    }

    /// What lies behind the staircase: what is more than fits, lengths that are not judged, a grid, and the
    /// line g = t.
    fn ground(&self) -> String {
        let (top, unjudged) = (100.0 - HEIGHT, self.x(self.core.first_due));
        let mut svg = self.over();
        let _ = write!(
            svg,
            "<rect class=\"unjudged\" y=\"{top}%\" width=\"{unjudged:.3}%\" height=\"{HEIGHT}%\"/>"
        );
        for (_, x) in self.across.numbers() {
            let _ = write!(
                svg,
                "<line class=\"grid\" x1=\"{x:.3}%\" x2=\"{x:.3}%\" y1=\"{top}%\" y2=\"100%\"/>"
            );
        }
        for (number, _) in self.up.numbers() {
            let y = self.y(number);
            let _ = write!(
                svg,
                "<line class=\"grid\" x2=\"{AXIS}%\" y1=\"{y:.3}%\" y2=\"{y:.3}%\"/>"
            );
        }
        let end = self.across.end();
        let (x, y) = (self.x(end), self.y(end));
        let _ = write!(
            svg,
            "<line class=\"limit\" y1=\"100%\" x2=\"{x:.3}%\" y2=\"{y:.3}%\"/>"
        );
        svg
    }

    /// A path of the staircase: level from each length to the next, then straight up, or at the largest
    /// window down.
    fn path(&self) -> String {
        let (end, top) = (self.across.end(), self.up.end());
        let mut path = String::new();
        for (length, demand) in &self.steps {
            let across = BOX * share(*length, end);
            let down = BOX * (1.0 - share(*demand, top));
            let _ = if path.is_empty() {
                write!(path, "M0 {down:.1}")
            } else {
                write!(path, "H{across:.1}V{down:.1}")
            };
        }
        format!("{path}H{BOX}")
    }

    fn stairs(&self) -> String {
        boxed(&format!("<path class=\"stairs\" d=\"{}\"/>", self.path()))
    }

    /// The area below the staircase, and over it all that lies below the line: what is left to be seen is
    /// more than fits.
    fn over(&self) -> String {
        if self.why.verdict == Verdict::Passes {
            return String::new();
        }
        let fits = BOX * (1.0 - share(self.across.end(), self.up.end()));
        boxed(&format!(
            "<path class=\"over\" d=\"{}V{BOX}H0z\"/><path class=\"fits\" d=\"M0 {BOX}L{BOX} {fits:.1}V{BOX}z\"/>",
            self.path()
        ))
    }

    /// The mark at the named length, if the drawing has it: what is left of it, or too many, and in
    /// figures.
    fn mark(&self) -> String {
        let (length, sum) = match self.why.sum {
            Some(sum) if self.why.length <= self.across.end() => (self.why.length, sum),
            _ => return String::new(),
        };
        let (x, by) = (self.x(length), sum.slack.unsigned_abs());
        let said = match self.why.verdict {
            Verdict::Passes => format!("{length}: {by} to spare"),
            Verdict::Overloaded => format!("{length}: {by} too many"),
            Verdict::Undecided => format!("{length}: undecided"),
        };
        let (y, limit) = (self.y(self.core.at(length)), self.y(length));
        let (word, side) = (
            self.why.verdict.word(),
            if x < 50.0 { "right" } else { "left" },
        );
        format!(
            "<g class=\"{word}\"><line class=\"named\" x1=\"{x:.3}%\" x2=\"{x:.3}%\" y1=\"0\" y2=\"100%\"/>\
             <line class=\"slack\" x1=\"{x:.3}%\" x2=\"{x:.3}%\" y1=\"{limit:.3}%\" y2=\"{y:.3}%\"/>\
             <circle class=\"named\" cx=\"{x:.3}%\" cy=\"{y:.3}%\" r=\"4\"/>\
             <text class=\"{side}\" x=\"{x:.3}%\" y=\"10\">{said}</text></g>"
        )
    }
}

/// Shapes in the box that is stretched to the drawing.
fn boxed(shapes: &str) -> String {
    let from = 100.0 - HEIGHT;
    format!(
        "<svg y=\"{from}%\" width=\"{AXIS}%\" height=\"{HEIGHT}%\" viewBox=\"0 0 {BOX} {BOX}\" \
         preserveAspectRatio=\"none\">{shapes}</svg>"
    )
}

#[cfg(test)]
mod tests {
    use super::*;

    #[test]
    fn both_places_are_in_a_drawing() {
        assert_eq!(ends(315, 4_000), [492, 4_501]);
        assert_eq!(ends(3_999, 4_000), [4_501]);
        assert_eq!(ends(0, 5), [6]);
        assert_eq!(ends(100_000_000, 10), [15, 101_000_000]);
    }
}
