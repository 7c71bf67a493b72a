//! The command, end to end: what each subcommand prints and its exit status, over the examples.

#![warn(clippy::all, clippy::pedantic)]

mod common;

use common::command::{desk, file, folder, on_a_terminal, spardimple, spardimple_fed, text};
use std::os::unix::fs::symlink;
use std::process::Command;

#[test]
fn plans_of_the_examples() {
    for name in ["film-line", "case-packer", "labeller"] {
        let planned = spardimple(&["plan", &format!("examples/{name}.sheet")]);
        assert_eq!(planned.status.code(), Some(0), "{name}");
        let listing = file(&format!("examples/{name}.listing"));
        assert_eq!(text(&planned.stdout), listing, "{name}");
        assert!(planned.stderr.is_empty(), "{name}");
    }
}

/// A refused sheet has nothing on standard output, and on standard error the file and the line, the
/// number, what stands there with the fault underlined, a hint, and what to do.
#[test]
fn refused_sheets() {
    let refused = |path: &str, message: &str| {
        let refused = spardimple(&["plan", path]);
        assert_eq!(refused.status.code(), Some(1), "{path}");
        assert!(refused.stdout.is_empty(), "{path}");
        assert_eq!(text(&refused.stderr), format!("{path}:{message}\n"));
    };
    refused(
        "examples/film-line-mistyped.sheet",
        "14: refused (5): there is no part or task of that name
  fit⇥jaw-cross⇥servo-1m
                ^^^^^^^^
  no part `servo-1m` above; `servo-1ms`, `servo-2ms` are different parts
  to do: write the name exactly as the line that defines it; upper and lower case differ",
    );
    refused(
        "configurator/tests/data/special/slow-search.sheet",
        "40: refused (7): no core has room for task 18, `t17`
  fit⇥t17⇥p17
      ^^^
  to do: add a core, or give some task less work (C) or more time (D, T); a smaller grain can help too
  why: core 16 with the whole of `t17` is undecided: more work than time in every length up to 100000000 ticks; within that 115506598 are asked for, 15506598 too many
  most is asked by `t17` (70919194 in 106 jobs, 1590 in interrupts) and `t0` (44582484 in 111 jobs, 3330 in interrupts)",
    );
    refused(
        "examples/film-line.listing",
        "1: refused (8): not formed as it should be, or cut short
  plan⇥11⇥12
  ^^^^^^^^^^
  this is a line of a listing
  to do: see that it is the right file",
    );
}

/// README shows what the command prints.
#[test]
fn readme_has_what_is_printed() {
    let readme = file("README.md");
    let listing = file("examples/film-line.listing");
    assert!(readme.contains(&format!("```\n{listing}```\n")));
    let refused = spardimple(&["plan", "examples/film-line-mistyped.sheet"]);
    assert!(readme.contains(&format!("```\n{}```\n", text(&refused.stderr))));
    let moved = "diff --unit us examples/film-line.sheet examples/film-line-new-dosing.sheet";
    let moved = spardimple(&moved.split(' ').collect::<Vec<_>>());
    assert!(readme.contains(&format!("```\n{}```\n", text(&moved.stdout))));
}

/// The tour of README, as a new user types it: every command runs, and none ends in wrong use or in a
/// file that is missing. `bash .ci/run` is left out, and the desk where it has not been built; what the
/// launcher alone takes, `--setup` and `package`, is tried by `.ci/launcher` and `.ci/installed`.
#[test]
fn the_tour_can_be_gone() {
    let folder = folder("tour");
    let root = concat!(env!("CARGO_MANIFEST_DIR"), "/..");
    symlink(format!("{root}/examples"), folder.join("examples")).unwrap();
    let runner = std::env::var("CARGO_TARGET_X86_64_UNKNOWN_LINUX_GNU_RUNNER").unwrap_or_default();
    let program = format!("{runner} '{}'", env!("CARGO_BIN_EXE_spardimple"));
    let readme = file("README.md");
    let tour = readme
        .split("\n## ")
        .find(|part| part.starts_with("Ten minutes"))
        .unwrap();
    let typed = |line: &&str| {
        ["./spardimple", "sed", "diff"]
            .iter()
            .any(|word| line.starts_with(word))
    };
    let lines = tour.lines().filter(typed);
    let lines: Vec<&str> = lines.filter(|line| !line.contains(" package ")).collect();
    assert!(lines.len() >= 10, "{lines:?}");
    for line in lines {
        if line.contains(" desk ") && !desk().is_file() {
            println!("no desk program here: left out");
            continue;
        }
        let words = line
            .replace(" --setup", "")
            .replace("./spardimple", &program);
        let gone = Command::new("bash")
            .args(["-c", &words])
            .current_dir(&folder)
            .env("SPARDIMPLE_DESK", desk())
            .env("SPARDIMPLE_EMULATOR", &runner)
            .output()
            .unwrap();
        // refused, or something moved
        let ends = ["mistyped", "checkweigher", " batch ", "new-dosing"]
            .iter()
            .any(|word| line.contains(word) && !line.starts_with("sed"));
        assert_eq!(gone.status.code(), Some(i32::from(ends)), "{line}");
    }
}

#[test]
fn verdicts_of_the_examples() {
    let judged = |words: &[&str]| {
        let judged = spardimple(words);
        assert_eq!(judged.status.code(), Some(0));
        text(&judged.stdout)
    };
    let costs = "examples/film-core.cost";
    let passes = judged(&["verdict", "examples/film-core.rec", costs]);
    assert!(passes.starts_with("passes"));
    assert_eq!(
        judged(&["verdict", "--table", "examples/film-core.table"]),
        passes
    );
    let late = judged(&["verdict", "examples/film-core-late.rec", costs]);
    assert!(late.starts_with("overloaded at 378"));
}

/// A table's refusals have the table's lines; 8 is the form of a line, all else the library's answer.
#[test]
fn verdicts_of_tables() {
    let costs = "cost\t0\t0\t0\t0\t0\t0\t0\t0\t0\n";
    let said = |table: &str| {
        let judged = spardimple_fed(&["verdict", "--table", "-"], table.as_bytes());
        (
            judged.status.code(),
            text(&judged.stdout) + &text(&judged.stderr),
        )
    };
    let twice = format!("{costs}whole\t5\t5\t10\t0\t0\t0\nwhole\t5\t5\t10\t0\t0\t0\n");
    assert!(said(&twice).1.starts_with("overloaded at 9"));
    assert!(said(costs).1.starts_with("passes"));
    for (table, begins, has) in [
        (
            format!("{costs}whole\t6\t5\t10\t0\t0\t0\n"),
            ":2: refused (3)",
            "x is 6 here and D is 5",
        ),
        (
            format!("{costs}half\t6\t5\t10\t0\t0\t0\n"),
            ":2: refused (8)",
            "`whole` or `first` or `last`",
        ),
        (
            format!("{costs}whole\t5\t5\t10\t0\t0\n"),
            ":2: refused (8)",
            "5, where 6 should stand",
        ),
        (
            "cost\t0\t0\t0\t0\t0\t0\t0\t0\t100001\n".to_owned(),
            ":1: refused (2)",
            "π is 100001 here",
        ),
        (String::new(), ":1: refused (8)", "the file is empty"),
        (
            costs.trim_end().to_owned(),
            ":1: refused (8)",
            "without a newline",
        ),
        (
            costs.to_owned() + &"whole\t1\t1\t1\t0\t0\t0\n".repeat(80),
            ":81: refused (6)",
            "79 records",
        ),
        (
            costs.to_owned() + &"x".repeat(17_000),
            ": refused (9)",
            "16,384",
        ),
    ] {
        let (status, said) = said(&table);
        assert_eq!(status, Some(1), "{said}");
        assert!(
            said.starts_with(&format!("standard input{begins}")),
            "{said}"
        );
        assert!(said.contains(has), "{said}");
    }
}

#[test]
fn a_refused_verdict_is_a_sentence_on_standard_error() {
    let records = "examples/film-core.rec";
    let refused = spardimple(&["verdict", records, records]);
    assert_eq!(refused.status.code(), Some(1));
    assert!(refused.stdout.is_empty());
    assert!(text(&refused.stderr).starts_with("examples/film-core.rec: refused (8)"));
}

/// On a terminal there is a progress bar.
#[test]
fn progress_on_a_terminal() {
    let batch = on_a_terminal("batch examples", "");
    assert!(
        batch.contains(&format!("\r[{}] 6 of 6\r\u{1b}[K", "=".repeat(40))),
        "{batch}"
    );
}

#[test]
fn completions_and_the_manual_page() {
    for (shell, word) in [
        ("bash", "complete -F _spardimple"),
        ("zsh", "#compdef spardimple"),
        ("fish", "complete -c spardimple"),
        ("elvish", "edit:completion"),
        ("powershell", "Register-ArgumentCompleter"),
    ] {
        let script = spardimple(&["completions", shell]);
        assert_eq!(script.status.code(), Some(0), "{shell}");
        assert!(text(&script.stdout).contains(word), "{shell}");
    }
    let page = text(&spardimple(&["man"]).stdout);
    assert!(page.starts_with(".TH SPARDIMPLE 1"));
    for refusal in configurator::refusals::TABLE {
        assert!(page.contains(&format!(".TP\n.B {}\n", refusal.number)));
    }
}

/// Each subcommand has help with an example; the command's own help has the statuses.
#[test]
fn help() {
    let help = spardimple(&["--help"]);
    assert_eq!(help.status.code(), Some(0));
    let help = text(&help.stdout);
    for status in [
        "0  accepted",
        "1  refused",
        "2  wrong use",
        "3  a file could not",
    ] {
        assert!(help.contains(status), "{status}");
    }
    for sub in [
        "new",
        "plan",
        "check",
        "fmt",
        "verdict",
        "why",
        "show",
        "report",
        "diff",
        "desk",
        "batch",
        "completions",
        "man",
    ] {
        assert!(help.contains(&format!("\n  spardimple {sub}")), "{sub}");
        let own = spardimple(&[sub, "--help"]);
        assert_eq!(own.status.code(), Some(0), "{sub}");
        let own = text(&own.stdout);
        assert!(
            own.contains("Example") && own.contains(&format!("spardimple {sub} ")),
            "{sub}"
        );
    }
    assert_eq!(text(&spardimple(&["-V"]).stdout), "spardimple 0.1.0\n");
}

#[test]
fn wrong_use_has_its_status() {
    let wrong: [&[&str]; 9] = [
        &[],
        &["plann", "examples/film-line.sheet"],
        &["plan"],
        &["plan", "one", "two"],
        &["verdict", "one"],
        &["verdict", "one", "two", "--table", "three"],
        &["show", "--colour", "one"],
        &["completions", "tcsh"],
        &["desk", "-"],
    ];
    for words in wrong {
        let wrong = spardimple(words);
        assert_eq!(wrong.status.code(), Some(2), "{words:?}");
        assert!(
            wrong.stdout.is_empty() && !wrong.stderr.is_empty(),
            "{words:?}"
        );
    }
}
