//! The report's drawings of demand, as they are written: every value against the oracle's, to scale.

#![warn(clippy::all, clippy::pedantic)]

mod common;

use common::command::{file, folder};
use common::page::{example, made};
use configurator::why::{Verdict, Why};
use configurator::why_core;
use plain::demand::Core;
use plain::sheet;
use plain::verdict::Way;
use plain::walk::walk_through;

/// The most steps of a staircase that has them all.
const STEPS: usize = 240;

/// The cores of a sheet as the oracle has them, each with its number: those of its plan that have pieces,
/// or the last with the task that has no room.
fn cores(bytes: &[u8]) -> Vec<(u64, Core)> {
    let sheet = sheet::read(bytes).unwrap();
    let core = |pieces| Core {
        costs: sheet.costs,
        pieces,
    };
    match walk_through(&sheet, Way::Stretches) {
        Ok(plan) => (1..)
            .zip(plan.rows)
            .filter(|(_, row)| !row.is_empty())
            .map(|(at, row)| (at, core(row.iter().map(|placed| placed.piece).collect())))
            .collect(),
        Err(stuck) => {
            let row = core(stuck.row.iter().map(|placed| placed.piece).collect());
            let whole = sheet.tasks[stuck.task].times.whole_piece();
            vec![(1, row.with(whole))]
        }
    }
}

/// The lengths from 0 on at which the demand changes, each with the demand there; no more than tell that
/// they are too many.
fn steps(core: &Core, end: u64) -> Vec<(u64, u64)> {
    let mut steps = vec![(0, core.demand(0))];
    for length in 1..=end {
        let demand = core.demand(length);
        if steps[steps.len() - 1].1 != demand {
            steps.push((length, demand));
        }
        if steps.len() > STEPS {
            break;
        }
    }
    steps
}

/// What stands behind some words, up to a sign.
fn behind<'a>(text: &'a str, words: &str, until: char) -> &'a str {
    let rest = text.split_once(words).expect(words).1;
    rest.split(until).next().unwrap()
}

fn near(is: f64, should: f64, by: f64, what: &str) {
    assert!((is - should).abs() <= by, "{what}: {is}, not {should}");
}

/// A part of a whole of that size.
#[allow(clippy::cast_precision_loss)] // all lengths are far below 2^52
fn part(of: u64, whole: u64, size: f64) -> f64 {
    of as f64 / whole as f64 * size
}

/// The corners of a path of `M`, `H` and `V`.
fn corners(path: &str) -> Vec<(f64, f64)> {
    let number = |text: &str| text.parse::<f64>().expect(text);
    let mut parts = path.strip_prefix("M0 ").unwrap().split('H');
    let mut corners = vec![(0.0, number(parts.next().unwrap()))];
    for part in parts {
        match part.split_once('V') {
            Some((x, y)) => corners.push((number(x), number(y))),
            None => assert_eq!(part, "10000"),
        }
    }
    corners
}

#[test]
fn curves_are_to_scale() {
    let folder = folder("page-curves");
    for (name, status, figures) in [
        ("film-line", 0, 3),
        ("case-packer", 0, 4),
        ("labeller", 0, 2),
        ("film-line-checkweigher", 1, 1),
    ] {
        let bytes = file(&format!("examples/{name}.sheet")).into_bytes();
        let (_, page) = example(&folder, name, status);
        assert_eq!(compare(&page, &bytes), figures, "{name}");
    }
}

/// More work than time: the demand is drawn up to the limit of the busy length and beyond.
#[test]
fn an_undecided_core_is_to_scale() {
    let folder = folder("page-undecided");
    let sheet = "machine\t1\t1\ncost\t0\t0\t0\t0\t0\t0\t0\t0\t0\npart\tp\t1\t1\t1\t0\t0\t0\n\
                 fit\ta\tp\nfit\tb\tp\n";
    let (_, page) = made(&folder, "late", sheet, 1);
    assert_eq!(compare(&page, sheet.as_bytes()), 1);
    assert!(page.contains("undecided: more work than time in every length up to 100000000 ticks"));
}

/// Compares all drawings of a sheet's page. Of how many cores they are.
fn compare(page: &str, bytes: &[u8]) -> usize {
    let cores = cores(bytes);
    let drawn: Vec<&str> = page.split("<figure class=\"demand\">").skip(1).collect();
    assert_eq!(drawn.len(), cores.len());
    for (figure, (at, core)) in drawn.iter().zip(&cores) {
        let text = why_core(bytes, *at).unwrap().unwrap();
        let why = Why::parse(&text).unwrap();
        assert!(figure.contains(&format!(" {} ticks", why.length)));
        let plots: Vec<&str> = figure.split("<div class=\"plot\"").skip(1).collect();
        let mut marks = 0;
        for plot in &plots {
            marks += look(plot, core, &why);
        }
        assert!((1..=2).contains(&plots.len()) && marks >= 1, "core {at}");
        let all = end(plots[plots.len() - 1]);
        assert!(all > why.length && all > core.largest_window());
    }
    cores.len()
}

/// Where a drawing ends.
fn end(plot: &str) -> u64 {
    let title = behind(plot, "<title>", '<');
    behind(title, "lengths up to ", ' ').parse().unwrap()
}

/// Looks at one drawing. How many marks it has.
fn look(plot: &str, core: &Core, why: &Why) -> usize {
    let end = end(plot);
    let right = steps(core, end);
    let path = corners(behind(plot, "class=\"stairs\" d=\"", '"'));
    let (expected, top) = if right.len() <= STEPS {
        let top = right.iter().map(|step| step.1).max().unwrap();
        (right, top.max(end))
    } else {
        let apart = usize::try_from(end / 400).unwrap().max(1);
        let at = |length| (length, core.demand(length));
        let mut even: Vec<(u64, u64)> = (0..=end).step_by(apart).map(at).collect();
        even.extend((why.length <= end).then(|| at(why.length)));
        even.sort_unstable();
        even.dedup();
        let top = even.iter().map(|step| step.1).max().unwrap();
        (even, top.max(end))
    };
    // where the largest window is no step, it is drawn all the same
    let stands = |window: u64| (window, core.demand(window));
    let mut expected = expected;
    if path.len() == expected.len() + 1 {
        expected.push(stands(core.largest_window()));
        expected.sort_unstable();
    }
    assert_eq!(path.len(), expected.len(), "corners up to {end}");
    for ((x, y), (length, demand)) in path.iter().zip(&expected) {
        near(*x, part(*length, end, 10_000.0), 0.06, "length");
        near(*y, 10_000.0 - part(*demand, top, 10_000.0), 0.06, "demand");
    }
    let percent = |text: &str, name: &str| -> f64 {
        behind(text, &format!(" {name}=\""), '%').parse().unwrap()
    };
    let line = behind(plot, "<line class=\"limit\"", '>');
    near(percent(line, "x2"), 96.0, 0.002, "the line's end");
    near(
        percent(line, "y2"),
        100.0 - part(end, top, 90.0),
        0.002,
        "the line's top",
    );
    let band = behind(plot, "<rect class=\"unjudged\"", '>');
    let due = core.least_live().min(end);
    near(
        percent(band, "width"),
        part(due, end, 96.0),
        0.002,
        "not judged",
    );
    if why.length > end {
        assert!(!plot.contains("<circle"));
        return 0;
    }
    let mark = behind(plot, "<circle class=\"named\"", '>');
    near(
        percent(mark, "cx"),
        part(why.length, end, 96.0),
        0.002,
        "the mark",
    );
    let demand = core.demand(why.length);
    if why.verdict != Verdict::Undecided {
        assert_eq!(demand, why.sum.unwrap().total);
    }
    near(
        percent(mark, "cy"),
        100.0 - part(demand, top, 90.0),
        0.002,
        "its demand",
    );
    1
}
