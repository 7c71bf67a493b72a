//! `diff`, end to end: its tables, the library's own lines, exit statuses, and refused sheets.

#![warn(clippy::all, clippy::pedantic)]

mod common;

use common::command::{file, folder, on_a_terminal, spardimple, spardimple_fed, text};
use common::long::widest;
use configurator::command::columns::width;
use configurator::diff::{Diff, Fate, Piece};
use std::fs;
use std::path::PathBuf;
use std::process::Output;

const FILM: &str = "examples/film-line.sheet";
const NEW_DOSING: &str = "examples/film-line-new-dosing.sheet";
const MISTYPED: &str = "examples/film-line-mistyped.sheet";
const STUCK: &str = "examples/film-line-checkweigher.sheet";

/// Sheets that have plans.
const PLANNED: [&str; 4] = [
    FILM,
    NEW_DOSING,
    "examples/case-packer.sheet",
    "examples/labeller.sheet",
];

fn status(ended: &Output) -> i32 {
    ended.status.code().unwrap()
}

/// What is printed of two sheets that have plans, by a command that says nothing.
fn printed(words: &[&str], ends: i32) -> String {
    let done = spardimple(&[&["diff"], words].concat());
    assert_eq!((status(&done), text(&done.stderr)), (ends, String::new()));
    text(&done.stdout)
}

/// A sheet in a folder of its own.
fn sheet(name: &str, text: &str) -> PathBuf {
    let path = folder(name).join("s.sheet");
    fs::write(&path, text).unwrap();
    path
}

/// Another dosing module moves three tasks, and the other eight stay.
#[test]
fn the_new_dosing_module() {
    assert_eq!(
        printed(&["--unit", "us", FILM, NEW_DOSING], 1),
        "what moved between two plans; times in us
  first:  11 tasks, examples/film-line.sheet
  second: 11 tasks, examples/film-line-new-dosing.sheet

moved: 3 tasks; * is before what changed
  task           plan  core   kind   budget  window  period  jitter   P   M
  dosing         was      2   whole    1250    4000    4000       0  40  80
                 now     *3   whole    *900    4000    4000       0  40  80
  jaw-cross      was      2   first     150     315    1000       0  20  40
                 was      3   last      160     685    1000      26  20  40
                 now      2  *whole    *310   *1000    1000       0  20  40
  mark-register  was      3   whole     150     600    4000      50  10  20
                 now     *2  *first     *90    *295    4000      50  10  20
                 now      3  *last      *60    *305    4000     *26  10  20

3 tasks moved, 0 came, 0 went, 8 stayed
"
    );
    let back = printed(&[NEW_DOSING, FILM], 1);
    assert!(back.contains("\n  dosing         was      3   whole     900 "));
    assert!(back.contains("\n                 now     *2   whole   *1250 "));
}

/// Tasks that only one of the plans has stand by themselves, the first plan's above the second's.
#[test]
fn tasks_in_one_plan_alone() {
    let film = file(FILM);
    let other = film
        .replace("fit\tpanel\tpanel\n", "")
        .replace("fit\treject\t", "fit\treject-gate\t");
    let path = sheet("diff-alone", &other);
    let path = path.to_str().unwrap();
    let table = printed(&[FILM, path], 1);
    assert_eq!(
        table,
        format!(
            "what moved between two plans; times in ticks
  first:  11 tasks, examples/film-line.sheet
  second: 10 tasks, {path}

only in the first: 2 tasks
  task    core  kind   budget  window  period  jitter    P    M
  panel      3  whole    9500   50000  100000       0  100  100
  reject     3  whole     300    5000   20000     200   10   20

only in the second: 1 task
  task         core  kind   budget  window  period  jitter   P   M
  reject-gate     3  whole     300    5000   20000     200  10  20

no tasks moved, 1 came, 2 went, 9 stayed
"
        )
    );
}

/// Nothing moved where the same names are placed alike: in the sheet itself, in one with its lines in
/// another order, and in one with other charged times, as another cost makes them.
#[test]
fn nothing_moved() {
    let labeller = file("examples/labeller.sheet");
    let (coder, glue) = ("part\tdate-coder\t", "part\tglue-roller\t");
    let at = |word: &str| labeller.find(word).unwrap();
    let (above, below) = labeller.split_at(at(glue));
    let (glue, below) = below.split_at(at(coder) - at(glue));
    let (coder, fits) = below.split_at(at("fit\t") - at(coder));
    let swapped = [above, coder, glue, fits].concat();
    let dearer = labeller.replace("cost\t10\t20\t", "cost\t10\t21\t");
    for (name, other) in [("same", &labeller), ("order", &swapped), ("cost", &dearer)] {
        let path = sheet(&format!("diff-{name}"), other);
        let path = path.to_str().unwrap();
        let table = printed(&["examples/labeller.sheet", path], 0);
        assert_eq!(
            table,
            format!(
                "what moved between two plans; times in ticks\n  first:  9 tasks, examples/labeller.sheet\n  \
                 second: 9 tasks, {path}\n\nnothing moved: 9 tasks stayed\n"
            )
        );
        let listing = printed(&["--listing", "examples/labeller.sheet", path], 0);
        assert_eq!(listing, "diff\t9\t9\n");
        let same = spardimple(&["plan", path]).stdout == spardimple(&["plan", PLANNED[3]]).stdout;
        assert_eq!(same, name != "cost", "the listing has charged times");
    }
    let none = "machine\t1\t1\ncost\t0\t0\t0\t0\t0\t0\t0\t0\t0\n";
    let path = sheet("diff-none", none);
    let done = spardimple_fed(&["diff", "-", path.to_str().unwrap()], none.as_bytes());
    assert_eq!(status(&done), 0);
    assert!(text(&done.stdout).ends_with("\n\nnothing moved: neither plan has a task\n"));
}

/// The library's own bytes, and a table that has all of them: each name once, and in its rows the fields
/// of its lines. `*` is before what no piece of the kind had, nor any if there was none.
#[test]
fn tables_have_what_the_lines_have() {
    let mut rows = 0;
    for first in PLANNED {
        for second in PLANNED {
            let ends = i32::from(first != second);
            let listing = printed(&["--listing", first, second], ends);
            let library = configurator::diff(file(first).as_bytes(), file(second).as_bytes());
            assert_eq!(library, Ok(Ok(listing.clone().into_bytes())));
            let table = printed(&[first, second], ends);
            let diff = Diff::parse(listing.as_bytes()).unwrap();
            for task in &diff.tasks {
                let mut below = table.lines().skip_while(|line| !begins(line, task.name));
                for (word, piece) in (task.was.iter().map(|piece| ("was", piece)))
                    .chain(task.now.iter().map(|piece| ("now", piece)))
                {
                    let row: Vec<&str> = below.next().unwrap().split_whitespace().collect();
                    let row = row.strip_prefix(&[task.name][..]).unwrap_or(&row);
                    let row = match task.fate() {
                        Fate::Moved => row.strip_prefix(&[word][..]).unwrap(),
                        _ => row,
                    };
                    let held: Vec<_> = match task.was.iter().find(|was| was.kind == piece.kind) {
                        Some(was) => vec![was.fields()],
                        None => task.was.iter().map(Piece::fields).collect(),
                    };
                    for (at, (field, shown)) in piece.fields().iter().zip(row).enumerate() {
                        let is_new = held.iter().all(|held| &held[at] != field);
                        let marked = word == "now" && task.fate() == Fate::Moved && is_new;
                        let mark = if marked { "*" } else { "" };
                        assert_eq!(*shown, format!("{mark}{field}"), "{table}");
                    }
                    rows += 1;
                }
                let once = table.lines().filter(|line| begins(line, task.name));
                assert_eq!(once.count(), 1, "{}", task.name);
            }
        }
    }
    assert!(rows > 200, "{rows}");
}

/// Whether a line of a table begins with that name.
fn begins(line: &str, name: &str) -> bool {
    line.starts_with("  ") && line.split_whitespace().next() == Some(name)
}

/// A refused sheet has the message of `plan`, whichever it is, and where both are refused, each has its
/// own. The exit status is not that of what moved.
#[test]
fn refused_sheets() {
    let message = |path: &str| text(&spardimple(&["plan", path]).stderr);
    for (first, second, refused) in [
        (MISTYPED, FILM, &[MISTYPED][..]),
        (FILM, MISTYPED, &[MISTYPED]),
        (STUCK, FILM, &[STUCK]),
        (FILM, STUCK, &[STUCK]),
        (STUCK, MISTYPED, &[STUCK, MISTYPED]),
        (MISTYPED, STUCK, &[MISTYPED, STUCK]),
        (MISTYPED, MISTYPED, &[MISTYPED, MISTYPED]),
        (FILM, "/dev/zero", &["/dev/zero"]),
        ("/dev/null", FILM, &["/dev/null"]),
    ] {
        let said: String = refused.iter().map(|path| message(path)).collect();
        for form in [&[][..], &["--listing"], &["--page", "-"]] {
            let words = [&["diff", first, second], form].concat();
            let done = spardimple(&words);
            assert_eq!((status(&done), done.stdout.len()), (6, 0), "{words:?}");
            assert_eq!(text(&done.stderr), said, "{words:?}");
        }
    }
}

/// Standard input is one of the two.
#[test]
fn standard_input() {
    let table = printed(&[FILM, NEW_DOSING], 1);
    for (words, fed, called) in [
        (["diff", "-", NEW_DOSING], FILM, "first:  11 tasks, "),
        (["diff", FILM, "-"], NEW_DOSING, "second: 11 tasks, "),
    ] {
        let done = spardimple_fed(&words, file(fed).as_bytes());
        assert_eq!(status(&done), 1);
        let named = table.replace(
            &format!("{called}{fed}\n"),
            &format!("{called}standard input\n"),
        );
        assert_eq!(text(&done.stdout), named);
    }
    let refused = spardimple_fed(&["diff", "-", MISTYPED], b"");
    assert_eq!(status(&refused), 6);
    let said = text(&refused.stderr);
    assert!(said.starts_with("standard input:1: refused (8)"), "{said}");
    assert!(said.contains("\nexamples/film-line-mistyped.sheet:14: refused (5)"));
    let both = spardimple_fed(&["diff", "-", "-"], file(FILM).as_bytes());
    assert_eq!((status(&both), both.stdout.len()), (2, 0));
    assert_eq!(
        text(&both.stderr),
        "- can stand for one of the two sheets only\n"
    );
}

#[test]
fn wrong_use_and_missing_files() {
    let wrong: [&[&str]; 8] = [
        &["diff"],
        &["diff", FILM],
        &["diff", FILM, NEW_DOSING, FILM],
        &["diff", FILM, NEW_DOSING, "--listing", "--json"],
        &["diff", FILM, NEW_DOSING, "--page", "-", "--json"],
        &["diff", FILM, NEW_DOSING, "--page", "-", "--listing"],
        &["diff", FILM, NEW_DOSING, "--page"],
        &["diff", FILM, NEW_DOSING, "--unit", "<b>"],
    ];
    for words in wrong {
        let wrong = spardimple(words);
        assert_eq!(status(&wrong), 2, "{words:?}");
        assert!(wrong.stdout.is_empty() && !wrong.stderr.is_empty());
    }
    for words in [
        ["diff", "examples/none.sheet", FILM],
        ["diff", FILM, "examples/none.sheet"],
        ["diff", MISTYPED, "examples/none.sheet"],
    ] {
        let missing = spardimple(&words);
        assert_eq!((status(&missing), missing.stdout.len()), (3, 0));
        assert!(text(&missing.stderr).starts_with("examples/none.sheet: "));
    }
}

/// The help of `diff` has its statuses, and so has the command's own.
#[test]
fn help_has_the_statuses() {
    let own = text(&spardimple(&["diff", "--help"]).stdout);
    let status =
        "The exit status is 0 if nothing moved, 1 if something did, and 6 if a sheet is refused";
    assert!(own.contains(status), "{own}");
    let common = text(&spardimple(&["--help"]).stdout);
    assert!(common.contains("\n  6  a sheet is refused: only by `diff`"));
    for help in [own, common] {
        let example =
            "spardimple diff examples/film-line.sheet examples/film-line-new-dosing.sheet";
        assert!(help.contains(example));
    }
}

/// With the longest names and figures no line is too long: names then stand above their pieces.
#[test]
fn tables_fit_a_terminal() {
    let (now, folder) = (widest(), folder("diff-widest"));
    let last = "\t1\t1000000\t1000000\t100000\t0\t100000\n";
    // before, all figures of one task were others, another grain made other splits, and a task had another
    // name
    let was = now
        .replacen(last, "\t2\t999999\t999999\t99999\t100000\t99999\n", 1)
        .replacen("machine\t16\t1\n", "machine\t16\t7\n", 1)
        .replacen("fit\ttask-00", "fit\ttask-64", 1);
    let sheets = [("was.sheet", was), ("now.sheet", now)].map(|(name, sheet)| {
        fs::write(folder.join(name), sheet).unwrap();
        folder.join(name).to_str().unwrap().to_owned()
    });
    let unit = "刻刻刻刻刻刻刻刻"; // two columns each
    let table = printed(&["--unit", unit, &sheets[0], &sheets[1]], 1);
    let long = |line: &&str| width(line) > 80 && !sheets.iter().any(|name| line.ends_with(name));
    assert_eq!(table.lines().find(long), None);
    for named in [
        "\n    plan  core   kind    budget    window    period   jitter       P        M\n  \
         task-05-sealing-jaw-cros\n    was      2   first    40005     40005   1000000        0       0        0\n",
        "\n    now     16   whole       *1  *1000000  *1000000  *100000      *0  *100000\n",
        "\nonly in the first: 1 task\n    core  kind    budget   window   period  jitter  P       M\n  \
         task-64-sealing-jaw-cros\n       1  whole  1000000  1000000  1000000       0  0  100000\n",
    ] {
        assert!(table.contains(named), "{named} {table}");
    }
}

/// On a terminal what changed, what came and what went have colours, but not where `NO_COLOR` is set; in
/// a pipe there is no colour.
#[test]
fn colours_on_a_terminal() {
    let words = format!("diff {FILM} {NEW_DOSING}");
    let coloured = on_a_terminal(&words, "");
    for painted in [
        "\u{1b}[1mmoved\u{1b}[0m: 3 tasks",
        "now     \u{1b}[32m*3\u{1b}[0m   whole    \u{1b}[32m*900\u{1b}[0m    4000",
        "\u{1b}[1m3 tasks moved, 0 came, 0 went, 8 stayed\u{1b}[0m",
    ] {
        assert!(coloured.contains(painted), "{coloured}");
    }
    let lone = on_a_terminal(
        "diff examples/labeller.sheet examples/case-packer.sheet",
        "",
    );
    assert!(lone.contains("\n  \u{1b}[31mcarousel "));
    assert!(lone.contains("\n  \u{1b}[32marm-left "));
    let plain = on_a_terminal(&words, "1");
    assert_eq!(plain.replace("\r\n", "\n"), printed(&[FILM, NEW_DOSING], 1));
}
