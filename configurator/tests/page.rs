//! The report's pages, as they are written: their structure, their figures and their scale.

#![warn(clippy::all, clippy::pedantic)]

mod common;

use common::command::{file, folder};
use common::page::{assert_alone, bars, drawings, example};

#[test]
fn structure() {
    let folder = folder("page");
    for name in ["film-line", "case-packer", "labeller"] {
        let (_, page) = example(&folder, name, 0);
        let listing = file(&format!("examples/{name}.listing"));
        assert!(page.contains(&format!("<pre class=\"listing\">{listing}</pre>")));
        let (drawings, pieces) = (drawings(&page), listing.lines().count() - 1);
        assert_eq!(bars(&page), drawings * pieces, "{name}");
        assert_eq!(page.matches("A bar is not when a piece runs.").count(), 1);
        assert_eq!(
            page.matches("Here too a bar is not when a piece runs.")
                .count(),
            drawings - 1
        );
        let mut cores = Vec::new();
        for line in listing.lines().skip(1) {
            let fields: Vec<&str> = line.split('\t').collect();
            if let [_, core, task, kind, budget, window, jitter, charged] = fields[..] {
                let title = format!(
                    "<title>{task}, {kind}, core {core}: budget {budget} in a window of {window}, \
                     jitter {jitter}, charged {charged}</title>"
                );
                assert_eq!(page.matches(&title).count(), drawings, "{title}");
                cores.push(core);
            }
        }
        cores.dedup();
        for sign in ["<svg class=\"axis\"", "ticks after release"] {
            assert_eq!(page.matches(sign).count(), drawings * cores.len(), "{sign}");
        }
        assert_alone(&page);
    }
    let (_, page) = example(&folder, "film-line-mistyped", 1);
    assert_alone(&page);
    assert!(page.contains("<h2>Refused (5) at line 14</h2>"));
    assert!(page.contains("fit⇥jaw-cross⇥<mark>servo-1m</mark>"));
    assert!(page.contains("<code>servo-1ms</code>, <code>servo-2ms</code> are different parts."));
    assert!(page.contains("<strong>What to do.</strong>"));
}

/// The table of pieces has the listing's figures, and the sheet's part and period.
#[test]
fn pieces_have_their_periods_and_jitters() {
    let (_, page) = example(&folder("page-pieces"), "film-line", 0);
    let row = |fields: [&str; 8]| {
        let [task, part, kind, figures @ ..] = fields;
        let figures = figures.map(|figure| format!("<td class=\"n\">{figure}</td>"));
        format!(
            "<tr><td class=\"name\">{task}</td><td class=\"t\">{part}</td><td class=\"t\">{kind}</td>{}</tr>",
            figures.concat()
        )
    };
    for fields in [
        [
            "reject",
            "reject-gate",
            "whole",
            "300",
            "5000",
            "20000",
            "200",
            "355",
        ],
        [
            "jaw-cross",
            "servo-1ms",
            "first",
            "150",
            "315",
            "1000",
            "0",
            "245",
        ],
        [
            "jaw-cross",
            "servo-1ms",
            "last",
            "160",
            "685",
            "1000",
            "26",
            "265",
        ],
    ] {
        assert_eq!(page.matches(&row(fields)).count(), 1, "{fields:?}");
    }
    assert!(page.contains("<span>Core 3: 6 pieces</span>"));
    let late = "A last piece may come late by its jitter, which is π + IpB + RelO + TsetO.";
    assert!(page.contains(late));
    let (_, unsplit) = example(&folder("page-unsplit"), "labeller", 0);
    assert!(!unsplit.contains(late));
}

/// Bars are to scale: on one axis, as long as their windows, filled as far as their budgets, and below
/// as long as their charged times.
#[test]
fn bars_are_to_scale() {
    let (_, page) = example(&folder("page-scale"), "film-line", 0);
    let drawing = page.split("<div class=\"charts\"").nth(1).unwrap();
    let number = |rect: &str, name: &str| -> f64 {
        let behind = rect.split(&format!(" {name}=\"")).nth(1).unwrap();
        behind.split(['%', '"']).next().unwrap().parse().unwrap()
    };
    let mut seen = 0;
    for piece in drawing.split("<svg class=\"piece ").skip(1) {
        let title = piece.split("<title>").nth(1).unwrap();
        let after = |words: &str| -> f64 {
            let behind = title.split(words).nth(1).unwrap();
            behind
                .split([' ', ',', '<'])
                .next()
                .unwrap()
                .parse()
                .unwrap()
        };
        let rects: Vec<&str> = piece.split("<rect class=").skip(1).collect();
        let start = if title.contains(", last,") {
            315.0
        } else {
            0.0
        };
        for (rect, class, words) in [
            (rects[0], "\"window\"", "window of "),
            (rects[1], "\"budget\"", "budget "),
            (rects[2], "\"charged\"", "charged "),
        ] {
            assert!(rect.starts_with(class), "{rect}");
            for (is, length) in [
                (number(rect, "width"), after(words)),
                (number(rect, "x"), start),
            ] {
                let should = 96.0 * length / 50_000.0; // per cent; the panel's window is the longest
                assert!((is - should).abs() < 0.001, "{is} {should} {title}");
            }
            seen += 1;
        }
    }
    assert_eq!(seen, 36);
}
