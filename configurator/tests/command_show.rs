//! `show`, end to end: its tables, and that they fit a terminal; the unit that it and `report` take.

#![warn(clippy::all, clippy::pedantic)]

mod common;

use common::command::{file, folder, on_a_terminal, spardimple, spardimple_fed, text};
use common::long::widest;
use configurator::command::columns::width;
use std::fs;

/// What `show` prints of a sheet that it is fed.
fn shown(sheet: &str) -> String {
    let shown = spardimple_fed(&["show", "-"], sheet.as_bytes());
    assert_eq!(shown.status.code(), Some(0), "{}", text(&shown.stderr));
    text(&shown.stdout)
}

/// The words of a text, whatever stands between them.
fn words(text: &str) -> Vec<&str> {
    text.split_whitespace().collect()
}

fn assert_fits(shown: &str) {
    for line in shown.lines() {
        assert!(width(line) <= 80, "{} columns: {line}", width(line));
    }
}

#[test]
fn the_film_line() {
    let shown = spardimple(&["show", "examples/film-line.sheet"]);
    assert_eq!(shown.status.code(), Some(0));
    assert!(shown.stderr.is_empty());
    let shown = text(&shown.stdout);
    assert_eq!(
        shown,
        "examples/film-line.sheet:
  11 tasks in 12 pieces on 3 cores, grain 10, times in ticks

core 1: 3 pieces
  task           part          kind   budget  window  period  jitter  charged
  cutter         cam-cutter    whole     420    1000    2000       0      485
  film-unwind    servo-2ms     whole     640    2000    2000       0      705
  jaw-fin        servo-2ms     whole     640    2000    2000       0      705

core 2: 3 pieces
  task           part          kind   budget  window  period  jitter  charged
  dosing         dosing-auger  whole    1250    4000    4000       0     1335
  film-feed      servo-1ms     whole     310    1000    1000       0      375
  jaw-cross      servo-1ms     first     150     315    1000       0      245

core 3: 6 pieces
  task           part          kind   budget  window  period  jitter  charged
  jaw-cross      servo-1ms     last      160     685    1000      26      265
  mark-register  mark-eye      whole     150     600    4000      50      205
  heater-upper   seal-heater   whole    1900   10000   10000       0     1985
  heater-lower   seal-heater   whole    1900   10000   10000       0     1985
  panel          panel         whole    9500   50000  100000       0     9645
  reject         reject-gate   whole     300    5000   20000     200      355

split: 1 task
  task       kind   core  budget  window  jitter  charged
  jaw-cross  first     2     150     315       0      245
  jaw-cross  last      3     160     685      26      265
"
    );
    assert_fits(&shown);
}

/// Every figure stands in the listing or in the sheet, and every piece is shown.
#[test]
fn every_piece() {
    for name in ["film-line", "case-packer", "labeller"] {
        let shown = shown(&file(&format!("examples/{name}.sheet")));
        let rows: Vec<Vec<&str>> = shown.lines().map(words).collect();
        for line in file(&format!("examples/{name}.listing")).lines().skip(1) {
            let f = words(line);
            let has = |row: &Vec<&str>| {
                row.len() == 8
                    && [row[0], row[2], row[3], row[4], row[6], row[7]]
                        == [f[2], f[3], f[4], f[5], f[6], f[7]]
            };
            assert_eq!(rows.iter().filter(|row| has(row)).count(), 1, "{line}");
        }
    }
}

/// With the longest names and figures no line is too long: the parts then have a table of their own.
#[test]
fn the_widest_sheet_fits() {
    let shown = shown(&widest());
    assert_fits(&shown);
    assert!(shown.starts_with("standard input: 64 tasks in 78 pieces on 16 cores, grain 1,"));
    assert!(shown.contains(
        "
core 1: 1 piece
  task                      kind    budget   window   period  jitter  charged
  task-00-sealing-jaw-cros  whole  1000000  1000000  1000000       0  1000000
"
    ));
    assert!(shown.contains(
        "
split: 14 tasks
  task                      kind   core  budget  window  jitter  charged
  task-05-sealing-jaw-cros  first     2   40010   40010       0    40010
  task-05-sealing-jaw-cros  last      3  199985  959990       0   199985
"
    ));
    assert!(shown.contains(
        "
parts: 64 tasks
  task                      part
  task-00-sealing-jaw-cros  part-00-sealing-jaw-cros
"
    ));
    assert!(shown.ends_with("  task-63-sealing-jaw-cros  part-63-sealing-jaw-cros\n"));
}

/// A part stands in its task's row as long as the row has 80 columns at most.
#[test]
fn parts_stay_in_their_rows_where_there_is_room() {
    let sheet = |part: &str| {
        format!(
            "machine\t1\t1\ncost\t0\t0\t0\t0\t0\t0\t0\t0\t0\npart\t{part}\t6\t10\t10\t0\t0\t1\n\
             fit\tmark-register\t{part}\n"
        )
    };
    let row = "mark-register  servo-1ms-fifte  whole       6      10      10       0        6";
    let just = shown(&sheet("servo-1ms-fifte"));
    assert!(just.contains(&format!("\n  {row}\n")), "{just}");
    assert!(!just.contains("\nparts: "));
    assert_fits(&just);
    let over = shown(&sheet("servo-1ms-fiftee"));
    assert!(over.ends_with(
        "\n\nparts: 1 task\n  task           part\n  mark-register  servo-1ms-fiftee\n"
    ));
    assert_fits(&over);
}

#[test]
fn cores_without_pieces() {
    assert_eq!(
        shown("machine\t2\t1\ncost\t0\t0\t0\t0\t0\t0\t0\t0\t0\n"),
        "standard input: no tasks in no pieces on 2 cores, grain 1, times in ticks

core 1: no pieces

core 2: no pieces
"
    );
}

#[test]
fn a_refused_sheet_is_not_shown() {
    let refused = spardimple(&["show", "examples/film-line-mistyped.sheet"]);
    assert_eq!(refused.status.code(), Some(1));
    assert!(refused.stdout.is_empty());
    assert!(text(&refused.stderr).contains("film-line-mistyped.sheet:14: refused (5)"));
}

/// On a terminal titles are bold and split tasks coloured, but not where `NO_COLOR` is set; in a pipe
/// there is no colour.
#[test]
fn colours_on_a_terminal() {
    let words = "show examples/film-line.sheet";
    let coloured = on_a_terminal(words, "");
    assert!(coloured.contains("\u{1b}[1mcore 1\u{1b}[0m: 3 pieces"));
    assert!(coloured.contains("\u{1b}[33mjaw-cross  last      3     160"));
    let plain = on_a_terminal(words, "1");
    assert!(plain.contains("core 1: 3 pieces") && !plain.contains('\u{1b}'));
}

/// A unit is a word in place of `ticks`; no number changes.
#[test]
fn units() {
    let sheet = "examples/labeller.sheet";
    for command in ["show", "report"] {
        let ticks = text(&spardimple(&[command, sheet]).stdout);
        for unit in ["us", "µs", "10ns", "strokes", "刻"] {
            let other = spardimple(&[command, "--unit", unit, sheet]);
            assert_eq!(other.status.code(), Some(0), "{unit}");
            let other = text(&other.stdout);
            assert!(!other.contains("ticks"), "{unit}");
            let same = ticks.replace("ticks", unit);
            assert_eq!(words(&other), words(&same), "{unit}");
            let times = other.matches(&format!("times in {unit}")).count();
            assert!(times >= if command == "show" { 1 } else { 5 }, "{unit}");
        }
        for word in ["", "1000", "u s", "us\n", "µ\u{202e}s", "<b>", "microsecs"] {
            let wrong = spardimple(&[command, "--unit", word, sheet]);
            assert_eq!(wrong.status.code(), Some(2), "{word:?}");
            assert!(wrong.stdout.is_empty(), "{word:?}");
            assert!(
                text(&wrong.stderr).contains("at most 8 letters"),
                "{word:?}"
            );
        }
    }
}

/// Names of every script line up: `batch` has them in its table.
#[test]
fn names_of_every_script_line_up() {
    let sheets = folder("scripts");
    for name in ["封口.sheet", "jaw.sheet", "пленка.sheet"] {
        let sheet = file("examples/labeller.sheet");
        fs::write(sheets.join(name), sheet).unwrap();
    }
    let done = spardimple(&["batch".as_ref(), sheets.as_os_str()]);
    assert_eq!(done.status.code(), Some(0));
    assert_eq!(
        text(&done.stdout),
        "sheet         answer   tasks  pieces  reason
jaw.sheet     planned      9       9
пленка.sheet  planned      9       9
封口.sheet    planned      9       9
3 sheets: 3 planned, 0 refused, 0 not read or written
"
    );
}
