//! `spardimple desk`, end to end: the proved desk program's answers pass through as they are, each
//! refusal has its reason, and on a terminal there is a prompt.

#![warn(clippy::all, clippy::pedantic)]

mod common;

use common::command::{
    closed, desk, emulator, file, folder, program, program_at, root, text, Terminal,
};
use inputs::sheets::{SHEET, SMALL};
use inputs::Random;
use std::fs::{self, File, Permissions};
use std::io::{BufRead, BufReader, Write};
use std::os::unix::fs::PermissionsExt;
use std::path::Path;
use std::process::{Command, Output, Stdio};
use std::thread::{self, sleep};
use std::time::Duration;

/// Plays a script over a sheet. It is fed while the answers are read.
fn play(words: &[&str], script: &[u8]) -> Output {
    assert!(
        desk().is_file(),
        "no program: run `bash .ci/prove desk` first"
    );
    let mut command = program();
    fed(command.arg("desk").args(words), script)
}

/// Runs a program with bytes on standard input.
fn fed(command: &mut Command, bytes: &[u8]) -> Output {
    let mut child = command
        .stdin(Stdio::piped())
        .stdout(Stdio::piped())
        .stderr(Stdio::piped())
        .spawn()
        .unwrap();
    let mut input = child.stdin.take().unwrap();
    let bytes = bytes.to_vec();
    let feeder = thread::spawn(move || {
        let _ = input.write_all(&bytes);
    });
    let output = child.wait_with_output().unwrap();
    feeder.join().unwrap();
    output
}

/// Copies a program. A process of its own writes it: had this one it open, so could a child that another
/// test begins, and what is open for writing cannot be run.
fn copied(from: &Path, to: &Path) {
    assert!(Command::new("cp")
        .args([from, to])
        .status()
        .unwrap()
        .success());
}

const FILM: &str = "examples/film-line.sheet";

/// What to do where the form is wrong and the cause is not known better.
const FORM: &str = "fields are parted by one tab, lines ended by one newline, the last line too; numbers have 1 to 7 \
digits, names 1 to 24 letters, digits, hyphens and full stops";

/// The answers are the program's. Each refusal has its reason, and the exit status tells of refused edits
/// where that is asked for.
#[test]
fn desk_plays_edits() {
    let edits = file("examples/film-line.edits");
    for (words, status) in [
        (&[FILM][..], 0),
        (&["--exit-status", FILM], 1),
        (&[FILM, "--exit-status"], 1),
    ] {
        let played = play(words, edits.as_bytes());
        assert_eq!(played.status.code(), Some(status));
        let answers = text(&played.stdout);
        assert!(
            answers.starts_with("refusal\t7\t12\nok\nok\nrefusal\t5\t0\nplan\t12\t13\n"),
            "{answers}"
        );
        assert!(
            answers.ends_with("piece\t3\tcheckweigher\twhole\t250\t5000\t0\t315\n"),
            "{answers}"
        );
        assert_eq!(
            text(&played.stderr),
            "edit:1: refused (7): no core has room for task 12, `checkweigher`
  add⇥checkweigher⇥250⇥5000⇥5000⇥0⇥20⇥40
      ^^^^^^^^^^^^
  after this edit there would be 12 tasks; the plan stays as it was
  to do: withdraw a task, or retime one to less work (C) or more time (D, T); cores and grain are changed in the sheet
  why: core 3 with the whole of `checkweigher` is overloaded: within 52829 ticks 52830 are asked for, 1 too many; a shorter length may lack more
  most is asked by `jaw-cross` (14045 in 53 jobs, 1590 in interrupts), `heater-upper` (9925 in 5 jobs, 90 in interrupts) and `heater-lower` (9925 in 5 jobs, 90 in interrupts)
edit:4: refused (5): there is no part or task of that name
  withdraw⇥reject-arm
           ^^^^^^^^^^
  no task `reject-arm` is held
  to do: write the name exactly as the line that defines it; upper and lower case differ
"
        );
    }
    let accepted = play(&["--exit-status", FILM], b"withdraw\tpanel\nlist\n");
    assert_eq!(accepted.status.code(), Some(0));
    assert!(accepted.stderr.is_empty());
    let none = play(&["--exit-status", FILM], b"");
    assert_eq!(none.status.code(), Some(0));
    assert!(none.stdout.is_empty() && none.stderr.is_empty());
}

/// A refused sheet is the one answer, and its message is that of `plan`.
#[test]
fn a_refused_sheet() {
    let sheet = "examples/film-line-mistyped.sheet";
    let refused = play(&[sheet], b"list\n");
    assert_eq!(refused.status.code(), Some(1));
    assert_eq!(text(&refused.stdout), "refusal\t5\t14\n");
    let planned = program().args(["plan", sheet]).output().unwrap();
    assert_eq!(refused.stderr, planned.stderr);
}

/// What is wrong with a line that has the form of no edit, and what to do where the cause is known. The
/// prompt's own words are lines like any other here.
#[test]
fn forms_are_explained() {
    for (script, reasons) in [
        (
            "list\r\n",
            &[(
                "list\\r\n      ^^",
                "a carriage return; the script has another system's line ends",
                "`tr -d '\\r' < EDITS > NEW` takes them off",
            )][..],
        ),
        (
            "\u{feff}list\n",
            &[(
                "\\u{feff}list\n  ^^^^^^^^",
                "a byte-order mark, which some editors put before the first word",
                "save the script without it",
            )],
        ),
        (
            "list",
            &[(
                "list",
                "the script ends here without a newline",
                "end the last line too",
            )],
        ),
        (
            "withdraw panel\nadd\tx 1\nList\n\nhelp\nquit\nexit\nwithdraw\tpanel\tpanel\n",
            &[
                (
                    "withdraw panel\n  ^^^^^^^^^^^^^^",
                    "there are spaces, and only tabs part fields",
                    "put one tab between fields",
                ),
                (
                    "add⇥x 1\n  ^^^^^^^",
                    "fields behind `add`: 1, where 7 should stand; there are spaces, and only tabs part fields",
                    "put one tab between fields",
                ),
                (
                    "List\n  ^^^^",
                    "the word is `list`, in lower case",
                    "write the word in lower case",
                ),
                ("", "the line is empty", FORM),
                (
                    "help\n  ^^^^",
                    "`help` is for the prompt, where standard input and standard error are terminals",
                    FORM,
                ),
                (
                    "quit\n  ^^^^",
                    "`quit` is for the prompt, where standard input and standard error are terminals",
                    FORM,
                ),
                (
                    "exit\n  ^^^^",
                    "`exit` is for the prompt, where standard input and standard error are terminals",
                    FORM,
                ),
                (
                    "withdraw⇥panel⇥panel\n  ^^^^^^^^^^^^^^^^^^^^",
                    "fields behind `withdraw`: 2, where 1 should stand",
                    FORM,
                ),
            ],
        ),
    ] {
        let played = play(&["--exit-status", FILM], script.as_bytes());
        assert_eq!(played.status.code(), Some(1));
        let answers = "refusal\t8\t0\n".repeat(reasons.len());
        assert_eq!(text(&played.stdout), answers);
        let reasons: Vec<String> = (1..)
            .zip(reasons)
            .map(|(number, (line, why, to_do))| {
                format!(
                    "edit:{number}: refused (8): not formed as it should be, or cut short\n  {line}\n  {why}\n  to do: {to_do}\n"
                )
            })
            .collect();
        assert_eq!(text(&played.stderr), reasons.concat());
    }
}

/// The other refusals. The tasks of `SHEET` are `press`, `feed` and `weld`, each six ticks in ten, on two
/// cores.
#[test]
fn refusals_are_explained() {
    let folder = folder("desk-reasons");
    let sheet = folder.join("s.sheet");
    fs::write(&sheet, SHEET).unwrap();
    let sheet = sheet.to_str().unwrap();
    let reasons = |script: &str, numbers: &str, parts: &[&str]| {
        let played = play(&[sheet], script.as_bytes());
        assert_eq!(text(&played.stdout), numbers);
        let said = text(&played.stderr);
        let told: Vec<&str> = said.split("edit:").skip(1).collect();
        assert_eq!(told.len(), parts.len(), "{said}");
        for (told, part) in told.iter().zip(parts) {
            assert!(told.starts_with(part), "{said}");
        }
    };
    reasons(
        "add\tpress\t1\t10\t10\t0\t0\t0\nadd\tx\t11\t10\t10\t0\t0\t0\nretime\tPress\t1\t10\t10\t0\t0\t0\n",
        "refusal\t4\t0\nrefusal\t3\t0\nrefusal\t5\t0\n",
        &[
            "1: refused (4): that name is already taken\n  add⇥press⇥1⇥10⇥10⇥0⇥0⇥0\n      ^^^^^\n  \
             a task `press` is held already; `retime` gives it other times\n",
            "2: refused (3): a time must be at most 1,000,000, a cache charge at most 100,000, and 1 ≤ C ≤ D ≤ T\n  \
             add⇥x⇥11⇥10⇥10⇥0⇥0⇥0\n        ^^^^^\n  C is 11 here and D is 10\n",
            "3: refused (5): there is no part or task of that name\n  retime⇥Press⇥1⇥10⇥10⇥0⇥0⇥0\n         \
             ^^^^^\n  no task `Press` is held; `press` is a different task\n",
        ],
    );
    // the task without room is counted as the tasks would be then, and is not the edit's own
    reasons(
        "withdraw\tfeed\nadd\tnew\t2\t10\t10\t0\t0\t0\nretime\tnew\t10\t10\t10\t0\t0\t0\n",
        "ok\nok\nrefusal\t7\t2\n",
        &[
            "3: refused (7): no core has room for task 2, `weld`\n  retime⇥new⇥10⇥10⇥10⇥0⇥0⇥0\n  \
             after this edit there would be 3 tasks; the plan stays as it was\n",
        ],
    );
    let script = (1..=62)
        .map(|at| format!("add\tn{at}\t1\t1000000\t1000000\t0\t0\t0\n"))
        .collect::<Vec<_>>()
        .concat();
    reasons(
        &script,
        &format!("{}refusal\t6\t0\n", "ok\n".repeat(61)),
        &["62: refused (6): one too many; at most 64 parts, 64 tasks, 79 records\n  add⇥n62⇥1⇥1000000⇥1000000⇥0⇥0⇥0\n      \
           ^^^\n  64 tasks are held already\n"],
    );
    let special = "configurator/tests/data/special/withdraw7";
    let played = play(
        &[&format!("{special}.sheet")],
        file(&format!("{special}.script")).as_bytes(),
    );
    let said = text(&played.stderr);
    assert!(
        said.starts_with("edit:1: refused (7): no core has room for task 1, `t0`\n  withdraw⇥t1\n  after this edit there would be 3 tasks, placed afresh, and fewer can need more room; ")
    );
}

/// Through the command the program's answers are what they are without it, and each refusal among them
/// has its reason, with the number of its line.
#[test]
fn answers_pass_through() {
    let mut random = Random::for_test();
    let folder = folder("desk-random");
    let sheet = folder.join("s.sheet");
    let mut refused = 0;
    for round in 0..4 {
        for draw in &SMALL {
            fs::write(&sheet, draw.sheet(&mut random)).unwrap();
            let lines = random.between(1, 60);
            let mut script = draw.script(lines, &mut random);
            if round % 2 == 1 {
                script.pop();
            }
            let mut alone = match emulator() {
                Some(emulator) => Command::new(emulator),
                None => Command::new(desk()),
            };
            if emulator().is_some() {
                alone.arg(desk());
            }
            let alone = fed(alone.arg(&sheet), &script);
            let played = play(&[sheet.to_str().unwrap()], &script);
            assert_eq!(played.stdout, alone.stdout);
            if played.status.code() == Some(1) {
                continue; // the sheet is refused
            }
            assert_eq!(played.status.code(), Some(0));
            let answers = text(&played.stdout);
            let answers = answers.lines().filter(|line| !line.starts_with("piece\t"));
            let expected: Vec<String> = (1..)
                .zip(answers)
                .filter_map(|(number, answer)| {
                    let refusal = answer.strip_prefix("refusal\t")?.split('\t').next()?;
                    Some(format!("edit:{number}: refused ({refusal}): "))
                })
                .collect();
            let said = text(&played.stderr);
            let said: Vec<&str> = said.lines().filter(|l| l.starts_with("edit:")).collect();
            assert_eq!(said.len(), expected.len());
            for (said, expected) in said.iter().zip(&expected) {
                assert!(said.starts_with(expected), "{said}, {expected}");
            }
            refused += said.len();
        }
    }
    println!("{refused} refusals");
    assert!(refused > 50);
}

/// The desk answers an edit before the next one comes, the reason of a refusal too. When its answers are
/// lost it ends, though edits may still come.
#[test]
fn the_desk_answers_at_once() {
    let desk = |output: Stdio| {
        let mut desk = program()
            .args(["desk", FILM])
            .stdin(Stdio::piped())
            .stdout(output)
            .stderr(Stdio::piped())
            .spawn()
            .unwrap();
        let mut edits = desk.stdin.take().unwrap();
        edits.write_all(b"list\n").unwrap();
        (desk, edits)
    };
    let (mut played, mut edits) = desk(Stdio::piped());
    let mut answers = BufReader::new(played.stdout.take().unwrap()).lines();
    let mut reasons = BufReader::new(played.stderr.take().unwrap()).lines();
    for line in file("examples/film-line.listing").lines() {
        assert_eq!(answers.next().unwrap().unwrap(), line);
    }
    edits.write_all(b"withdraw\tpanel\n").unwrap();
    assert_eq!(answers.next().unwrap().unwrap(), "ok");
    edits.write_all(b"withdraw\tpanel\n").unwrap();
    assert_eq!(answers.next().unwrap().unwrap(), "refusal\t5\t0");
    let reason = reasons.next().unwrap().unwrap();
    assert!(reason.starts_with("edit:3: refused (5)"), "{reason}");
    assert!(reasons.nth(3).unwrap().unwrap().starts_with("  to do: "));
    drop(edits);
    assert!(answers.next().is_none() && reasons.next().is_none());
    assert_eq!(played.wait().unwrap().code(), Some(0));

    let full = File::options().write(true).open("/dev/full").unwrap();
    for (output, said) in [(full.into(), "standard output: No space"), (closed(), "")] {
        let (mut lost, edits) = desk(output);
        let ended = (0..6_000).any(|_| {
            sleep(Duration::from_millis(10));
            lost.try_wait().unwrap().is_some()
        });
        drop(edits);
        assert!(ended, "the desk waits for edits");
        let lost = lost.wait_with_output().unwrap();
        assert_eq!(lost.status.code(), Some(3));
        assert!(text(&lost.stderr).starts_with(said));
        assert_eq!(lost.stderr.is_empty(), said.is_empty());
    }
}

/// Scripts may have any length and any bytes: more than fits into pipes, and one line without an end.
#[test]
fn long_scripts() {
    let line = format!("withdraw\t{}\n", "x".repeat(180));
    let played = play(&[FILM], line.repeat(4_000).as_bytes());
    assert_eq!(played.status.code(), Some(0));
    assert_eq!(text(&played.stdout), "refusal\t8\t0\n".repeat(4_000));
    let said = text(&played.stderr);
    let last = "edit:4000: refused (8)";
    assert_eq!(said.matches(last).count(), 1);
    assert_eq!(said.matches("a name has at most 24 letters").count(), 4_000);
    for (byte, shown) in [(0, "\\0"), (0xff, "\\xff"), (b'x', "x")] {
        for end in [&b""[..], b"\n"] {
            let endless = [vec![byte; 3_000_000], end.to_vec()].concat();
            let played = play(&[FILM], &endless);
            assert_eq!(text(&played.stdout), "refusal\t8\t0\n");
            let said = text(&played.stderr);
            let why = "the line is longer than 200 bytes, and no edit is";
            assert!(said.contains(shown) && said.contains(why), "{said}");
            assert!(said.len() < 1_000, "{said}");
        }
    }
}

/// Edits that cannot be read are a failure, and so is a program that is missing, cannot be run, or ends
/// by itself.
#[test]
fn failures() {
    let failed = |command: &mut Command, said: &str| {
        let failed = command.args(["desk", FILM]).output().unwrap();
        assert_eq!(failed.status.code(), Some(3), "{said}");
        assert_eq!(text(&failed.stderr), said);
    };
    let folder = folder("desk-failures");
    let is_folder = "standard input: Is a directory (os error 21)\n";
    failed(program().stdin(File::open(&folder).unwrap()), is_folder);
    let unreadable = File::options().write(true).open("/dev/null").unwrap();
    let bad = "standard input: Bad file descriptor (os error 9)\n";
    failed(program().stdin(unreadable), bad);

    let none = folder.join("none");
    let place = none.display();
    failed(
        program().env("SPARDIMPLE_DESK", &none),
        &format!("{place}: the desk program is missing; SPARDIMPLE_DESK names this file\n"),
    );
    let installed = Path::new(env!("CARGO_BIN_EXE_spardimple"));
    let installed = installed.parent().and_then(Path::parent).unwrap();
    let place = fs::canonicalize(installed).unwrap();
    let place = place.join("lib/spardimple/desk");
    let place = place.display();
    for unset in [true, false] {
        let mut program = program();
        if unset {
            program.env_remove("SPARDIMPLE_DESK");
        } else {
            program.env("SPARDIMPLE_DESK", "");
        }
        failed(
            &mut program,
            &format!(
                "{place}: the desk program is missing; it was looked for there, and SPARDIMPLE_DESK can name another place\n"
            ),
        );
    }
    if emulator().is_none() {
        // an emulator tells of it by an exit status of the child that is not there
        failed(
            program().env("SPARDIMPLE_EMULATOR", "/none/emulator"),
            "/none/emulator: No such file or directory (os error 2)\n",
        );
    }
    let named = "which SPARDIMPLE_DESK names, ended";
    let folder = folder.join("bin");
    fs::create_dir(&folder).unwrap();
    let killed = folder.join("killed");
    fs::write(&killed, "#!/bin/sh\nkill -9 $$\n").unwrap();
    fs::set_permissions(&killed, Permissions::from_mode(0o755)).unwrap();
    for (other, how) in [
        ("/bin/false", "with exit status 1"),
        ("/bin/true", "before its edits"),
        (killed.to_str().unwrap(), "by signal 9"),
    ] {
        for edits in ["/dev/zero", "examples/film-line.edits"] {
            let mut program = program();
            program
                .env("SPARDIMPLE_DESK", other)
                .env("SPARDIMPLE_EMULATOR", "")
                .stdin(File::open(root("").join(edits)).unwrap());
            failed(&mut program, &format!("{other}, {named} {how}\n"));
        }
    }
    // a refused sheet is answered too
    let unanswered = program()
        .args(["desk", "examples/film-line-mistyped.sheet"])
        .env("SPARDIMPLE_DESK", "/bin/true")
        .env("SPARDIMPLE_EMULATOR", "")
        .output()
        .unwrap();
    assert_eq!(unanswered.status.code(), Some(3));
    assert_eq!(
        text(&unanswered.stderr),
        format!("/bin/true, {named} before its edits\n")
    );
}

/// Without `SPARDIMPLE_DESK` the program is the one that is installed beside the command. The command
/// itself holds no place of the project that it was built in.
#[test]
fn the_installed_program() {
    let folder = folder("desk-installed");
    let (bin, lib) = (folder.join("bin"), folder.join("lib/spardimple"));
    fs::create_dir_all(&bin).unwrap();
    fs::create_dir_all(&lib).unwrap();
    let command = bin.join("spardimple");
    copied(env!("CARGO_BIN_EXE_spardimple").as_ref(), &command);
    copied(&desk(), &lib.join("desk"));
    let link = folder.join("link");
    std::os::unix::fs::symlink("bin/spardimple", &link).unwrap();
    for command in [&command, &link] {
        let mut program = program_at(command);
        let program = program.env_remove("SPARDIMPLE_DESK").args(["desk", FILM]);
        let played = fed(program, b"list\n");
        assert_eq!(text(&played.stderr), "");
        assert_eq!(text(&played.stdout), file("examples/film-line.listing"));
    }
    fs::remove_file(lib.join("desk")).unwrap();
    copied("/bin/false".as_ref(), &lib.join("desk"));
    let mut program = program_at(&command);
    let program = program
        .env_remove("SPARDIMPLE_DESK")
        .env("SPARDIMPLE_EMULATOR", "");
    let failed = fed(program.args(["desk", FILM]), b"list\n");
    assert_eq!(failed.status.code(), Some(3));
    let place = fs::canonicalize(lib.join("desk")).unwrap();
    assert_eq!(
        text(&failed.stderr),
        format!(
            "{}, which is installed beside this command, ended with exit status 1\n",
            place.display()
        )
    );
    let bytes = fs::read(&command).unwrap();
    let built_in = env!("CARGO_MANIFEST_DIR").as_bytes();
    assert!(!bytes.windows(built_in.len()).any(|part| part == built_in));
}

/// A sheet may come by a pipe, which can be read once.
#[test]
fn a_sheet_by_a_pipe() {
    let program = format!(
        "{} '{}'",
        emulator().unwrap_or_default(),
        env!("CARGO_BIN_EXE_spardimple")
    );
    let played = Command::new("bash")
        .args(["-c", &format!("echo list | {program} desk <(cat {FILM})")])
        .current_dir(root(""))
        .env("SPARDIMPLE_DESK", desk())
        .env("SPARDIMPLE_EMULATOR", emulator().unwrap_or_default())
        .output()
        .unwrap();
    assert_eq!(text(&played.stderr), "");
    assert_eq!(text(&played.stdout), file("examples/film-line.listing"));
}

/// On a terminal there is a prompt, with help, a history, and blanks that part fields. The reason of a
/// refusal stands right behind its answer.
#[test]
fn edits_at_a_prompt() {
    let mut terminal = match Terminal::start(&format!("desk --exit-status {FILM}"), "xterm") {
        Some(terminal) => terminal,
        None => return,
    };
    let first = terminal.shows("desk> ");
    let told = format!(
        "edits on the plan of {FILM}\r\n\
         the sheet itself is not changed, and nothing is kept when the desk ends\r\n\
         `help` has the forms of edits; `quit`, `exit` or Ctrl-D ends\r\n"
    );
    assert!(first.starts_with(&told), "{first}");
    for keys in ["help\r", "HELP\r", "?\r"] {
        terminal.types(keys);
        let help = terminal.shows("desk> ");
        assert!(help.contains("\r\n  withdraw  NAME "), "{help}");
        assert!(help.contains("`quit`, `exit` or Ctrl-D ends."), "{help}");
    }
    let reason = |number: u8| {
        format!(
            "\r\nrefusal\t5\t0\r\nedit:{number}: refused (5): there is no part or task of that name\r\n  \
             withdraw⇥panels\r\n           ^^^^^^\r\n  no task `panels` is held; `panel` is a different task\r\n"
        )
    };
    terminal.types("withdraw   panels\r");
    let answer = terminal.shows("desk> ");
    assert!(answer.contains(&reason(1)), "{answer}");
    // the arrow up
    terminal.types("\u{1b}[A\r");
    let again = terminal.shows("differ\r\n");
    assert!(again.contains(&reason(2)), "{again}");
    terminal.shows("desk> ");
    // a tab, and the other way to end a line
    terminal.types("withdraw\tpanel\n");
    assert!(terminal.shows("\r\nok\r\n").contains("panel"));
    terminal.shows("desk> ");
    // Ctrl-C drops what was typed, and so does a line of blanks
    terminal.types("withdraw reject\u{3}");
    terminal.shows("desk> ");
    terminal.types("  \r");
    terminal.shows("desk> ");
    // several lines are pasted at once
    terminal.types("\u{1b}[200~list\nlist\n\u{1b}[201~\r");
    for _ in 0..2 {
        assert!(!terminal.shows("plan\t10\t11\r\n").contains("refusal"));
    }
    terminal.shows("desk> ");
    terminal.types("\u{4}");
    let (rest, status) = terminal.ends();
    assert!(!rest.contains("desk> "), "{rest}");
    assert_eq!(status.code(), Some(1));
}

/// `quit` and `exit` end the run as Ctrl-D does, and are no refused edits. What comes behind them is not
/// played. A line of no form has the prompt's own remedy.
#[test]
fn words_that_end_the_prompt() {
    for (keys, status) in [
        ("quit\r", 0),
        (" Exit \r", 0),
        ("\u{1b}[200~exit\nwithdraw none\n\u{1b}[201~\r", 0),
        ("quit now\rquit\r", 1),
    ] {
        let mut terminal = match Terminal::start(&format!("desk --exit-status {FILM}"), "xterm") {
            Some(terminal) => terminal,
            None => return,
        };
        terminal.shows("desk> ");
        terminal.types(keys);
        let (rest, ended) = terminal.ends();
        assert_eq!(ended.code(), Some(status), "{rest}");
        let refusals = usize::from(status == 1);
        assert_eq!(rest.matches("refusal\t").count(), refusals, "{rest}");
        let to_do = "\r\n  to do: type help to see the forms of edits\r\n";
        assert_eq!(rest.matches(to_do).count(), refusals, "{rest}");
    }
}

/// The prompt and what is typed go to the terminal, the answers to standard output. There is no
/// prompt where messages go elsewhere, nor on a terminal on which no line can be edited.
#[test]
fn a_prompt_beside_the_answers() {
    let folder = folder("desk-prompt");
    let out = folder.join("answers");
    let words = format!("desk {FILM} > '{}'", out.display());
    let mut terminal = match Terminal::start(&words, "xterm") {
        Some(terminal) => terminal,
        None => return,
    };
    for keys in ["withdraw panel\r", "withdraw panel\r"] {
        terminal.shows("desk> ");
        terminal.types(keys);
    }
    terminal.shows("edit:2: refused (5)");
    terminal.shows("desk> ");
    terminal.types("\u{4}");
    assert_eq!(terminal.ends().1.code(), Some(0));
    assert_eq!(fs::read_to_string(&out).unwrap(), "ok\nrefusal\t5\t0\n");

    let err = folder.join("messages");
    let words = format!("desk {FILM} 2> '{}'", err.display());
    let mut terminal = Terminal::start(&words, "xterm").unwrap();
    terminal.types("help\n");
    let shown = terminal.shows("refusal\t8\t0\r\n");
    terminal.types("\u{4}");
    assert!(!shown.contains("desk> "), "{shown}");
    assert_eq!(terminal.ends().1.code(), Some(0));
    let said = fs::read_to_string(&err).unwrap();
    let why =
        "\n  `help` is for the prompt, where standard input and standard error are terminals\n";
    assert!(said.contains(why), "{said}");

    let mut terminal = Terminal::start(&format!("desk {FILM}"), "dumb").unwrap();
    terminal.types("withdraw\tpanel\n");
    let shown = terminal.shows("ok\r\n");
    terminal.types("\u{4}");
    assert!(!shown.contains("desk> "), "{shown}");
    assert_eq!(terminal.ends().1.code(), Some(0));
}
