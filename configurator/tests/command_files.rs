//! The command's files: standard input, files that are long, missing or no files, names that are no
//! text, closed pipes, and output that is written whole or not at all.

#![warn(clippy::all, clippy::pedantic)]

mod common;

use common::command::{
    bound, closed, file, folder, names, program, root, spardimple, spardimple_fed, text,
};
use inputs::sheets::{LISTING, SHEET};
use std::ffi::OsStr;
use std::fs::{self, File, Permissions};
use std::os::unix::ffi::OsStrExt;
use std::os::unix::fs::{symlink, MetadataExt, PermissionsExt};
use std::path::Path;
use std::process::{Command, Output, Stdio};

#[test]
fn standard_input() {
    let planned = spardimple_fed(&["plan", "-"], SHEET.as_bytes());
    assert_eq!(planned.status.code(), Some(0));
    assert_eq!(text(&planned.stdout), LISTING);
    let shown = spardimple_fed(&["show", "-"], SHEET.as_bytes());
    assert!(text(&shown.stdout).starts_with("standard input: 3 tasks in 4 pieces on 2 cores"));
    let refused = spardimple_fed(&["plan", "-"], b"");
    assert_eq!(refused.status.code(), Some(1));
    assert!(text(&refused.stderr).starts_with("standard input:1: refused (8)"));
    let records = fs::read(root("examples/film-core.rec")).unwrap();
    let judged = spardimple_fed(&["verdict", "-", "examples/film-core.cost"], &records);
    assert!(text(&judged.stdout).starts_with("passes"));
}

/// A gigabyte is refused at once: as a sheet and as a table with 9, as records with 6 or 8, as costs
/// with 8. (The file has no blocks; its length is what counts.)
#[test]
fn long_files() {
    let folder = folder("long");
    let path = folder.join("gigabyte");
    let gigabyte = 1_u64 << 30;
    File::create(&path).unwrap().set_len(gigabyte).unwrap();
    let long = path.to_str().unwrap();
    let costs = "examples/film-core.cost";
    let refused = |words: &[&str], number: u8| {
        let refused = spardimple(words);
        assert_eq!(refused.status.code(), Some(1), "{words:?}");
        let said = text(&refused.stderr);
        assert!(said.contains(&format!(": refused ({number})")), "{said}");
    };
    for sub in ["plan", "show", "report"] {
        let answered = spardimple(&[sub, long]);
        assert_eq!(answered.status.code(), Some(1));
        assert!(text(&answered.stderr).contains("gigabyte: refused (9): the sheet is longer"));
        assert!(answered.stdout.len() < 20_000);
    }
    refused(&["verdict", "--table", long], 9);
    refused(&["verdict", "examples/film-core.rec", long], 8);
    refused(&["verdict", long, costs], 8);
    File::create(&path)
        .unwrap()
        .set_len(gigabyte / 28 * 28)
        .unwrap();
    refused(&["verdict", long, costs], 6);
    for (length, number) in [(79 * 28, 3), (80 * 28, 6), (80 * 28 + 1, 8), (81 * 28, 6)] {
        File::create(&path).unwrap().set_len(length).unwrap();
        refused(&["verdict", long, costs], number);
    }
    fs::remove_file(&path).unwrap();
    let endless = spardimple(&["plan", "/dev/zero"]);
    assert_eq!(endless.status.code(), Some(1));
    assert!(text(&endless.stderr).starts_with("/dev/zero: refused (9)"));
}

/// One byte makes the difference between a sheet that is read and one that is too long.
#[test]
fn the_longest_sheet() {
    let folder = folder("longest");
    let path = folder.join("s.sheet");
    for (length, number) in [(16_383, 8), (16_384, 8), (16_385, 9), (16_386, 9)] {
        fs::write(&path, "x".repeat(length)).unwrap();
        let refused = spardimple(&["plan".as_ref(), path.as_os_str()]);
        let said = text(&refused.stderr);
        assert!(
            said.contains(&format!(": refused ({number})")),
            "{length}: {said}"
        );
    }
}

#[test]
fn missing_files_and_folders() {
    for words in [
        &["plan", "examples/none.sheet"][..],
        &["show", "examples/none.sheet"],
        &["report", "examples/none.sheet"],
        &["desk", "examples/none.sheet"],
        &["verdict", "examples/none.rec", "examples/film-core.cost"],
        &["verdict", "--table", "examples/none.table"],
        &["why", "examples/none.sheet", "1"],
        &[
            "why",
            "--records",
            "examples/none.rec",
            "examples/film-core.cost",
        ],
        &["plan", "examples"],
        &["verdict", "examples/film-core.rec", "examples"],
    ] {
        let failed = spardimple(words);
        assert_eq!(failed.status.code(), Some(3), "{words:?}");
        assert!(failed.stdout.is_empty());
        assert!(text(&failed.stderr).starts_with("examples"), "{words:?}");
    }
}

/// Names of files, words and names of tasks may be any bytes.
#[test]
fn bytes_that_are_no_text() {
    let folder = folder("no-text");
    let path = folder.join(OsStr::from_bytes(b"line-\xff.sheet"));
    fs::write(&path, SHEET).unwrap();
    let planned = spardimple(&["plan".as_ref(), path.as_os_str()]);
    assert_eq!(text(&planned.stdout), LISTING);
    let batch = spardimple(&["batch".as_ref(), folder.as_os_str()]);
    assert_eq!(batch.status.code(), Some(0));
    let page = folder.join(OsStr::from_bytes(b"\xfe.html"));
    let words = [
        "report".as_ref(),
        path.as_os_str(),
        "-o".as_ref(),
        page.as_os_str(),
    ];
    assert_eq!(spardimple(&words).status.code(), Some(0));
    assert!(fs::read_to_string(&page)
        .unwrap()
        .contains("line-\\xff.sheet"));
    for word in [&b"\xff"[..], b"--\xff", b"-\xff"] {
        let wrong = spardimple(&[OsStr::from_bytes(word)]);
        assert_eq!(wrong.status.code(), Some(2));
    }
    let sheet = [&SHEET.as_bytes()[..SHEET.len() - 1], b"\xff<b>\n"].concat();
    let refused = spardimple_fed(&["report", "-"], &sheet);
    assert_eq!(refused.status.code(), Some(1));
    assert!(text(&refused.stderr).contains("drv-a\\xff<b>"));
    let page = text(&refused.stdout);
    assert!(page.contains("drv-a\\xff&lt;b&gt;") && !page.contains("<b>"));
}

/// Whatever is printed, output that is lost ends with 3. A full disk is told, and so is output that
/// cannot be written at all; a reader that is gone is not. Nothing panics.
#[test]
fn lost_output() {
    let sheet = "examples/film-line.sheet";
    for words in [
        &["plan", sheet][..],
        &["plan", sheet, "-o", "-"],
        &["plan", sheet, "--json"],
        &[
            "verdict",
            "examples/film-core.rec",
            "examples/film-core.cost",
        ],
        &["verdict", "--table", "examples/film-core.table"],
        &["why", sheet],
        &["why", "--listing", sheet, "2"],
        &["why", "--json", "--table", "examples/film-core.table"],
        &["check", sheet],
        &["fmt", sheet],
        &["show", sheet],
        &["report", sheet],
        &["desk", sheet],
        &["completions", "bash"],
        &["man"],
        &["plan", "--help"],
        &["--version"],
    ] {
        let ended = |output: Stdio| {
            let edits = File::open(root("examples/film-line.edits")).unwrap();
            let mut program = program();
            let ended = program.args(words).stdin(edits).stdout(output).output();
            let ended = ended.unwrap();
            assert_eq!(ended.status.code(), Some(3), "{words:?}");
            text(&ended.stderr)
        };
        assert_eq!(ended(closed()), "", "{words:?}");
        let full = File::options().write(true).open("/dev/full").unwrap();
        let space = "standard output: No space left on device (os error 28)\n";
        assert_eq!(ended(full.into()), space, "{words:?}");
        let unwritable = File::open("/dev/null").unwrap();
        let bad = "standard output: Bad file descriptor (os error 9)\n";
        assert_eq!(ended(unwritable.into()), bad, "{words:?}");
    }
    // what a refusal prints is output too; its message stands alone
    for words in [
        &["plan", "--json", "examples/film-line-mistyped.sheet"][..],
        &["report", "examples/film-line-mistyped.sheet"],
        &["desk", "examples/film-line-mistyped.sheet"],
        &["why", "examples/film-line-checkweigher.sheet"],
        &["batch", "examples"],
    ] {
        let ended = program().args(words).stdout(closed()).output().unwrap();
        assert_eq!(ended.status.code(), Some(3), "{words:?}");
        let said = text(&ended.stderr);
        assert!(!said.contains("standard output"), "{said}");
        let full = File::options().write(true).open("/dev/full").unwrap();
        let ended = program().args(words).stdout(full).output().unwrap();
        assert_eq!(ended.status.code(), Some(3), "{words:?}");
        let said = text(&ended.stderr);
        assert!(said.ends_with("(os error 28)\n"), "{said}");
    }
    let quiet = program()
        .args(["plan", "examples/film-line-mistyped.sheet"])
        .stderr(closed())
        .output()
        .unwrap();
    assert_eq!(quiet.status.code(), Some(1));
}

/// Plans a sheet into a file.
fn plan_into(path: &Path, sheet: &str) -> Output {
    let words = [
        "plan".as_ref(),
        OsStr::new(sheet),
        "-o".as_ref(),
        path.as_os_str(),
    ];
    spardimple(&words)
}

/// What is written is whole; where the sheet is refused or the file cannot be written, it is as it
/// was, and no other file is left.
#[test]
fn output_is_whole_or_not_there() {
    let folder = folder("output");
    let path = folder.join("out.listing");
    let plan = |sheet: &str, path: &Path| plan_into(path, sheet).status.code();
    let listing = file("examples/film-line.listing");
    assert_eq!(plan("examples/film-line.sheet", &path), Some(0));
    assert_eq!(fs::read_to_string(&path).unwrap(), listing);
    assert_eq!(plan("examples/film-line-mistyped.sheet", &path), Some(1));
    assert_eq!(fs::read_to_string(&path).unwrap(), listing);
    assert_eq!(names(&folder), ["out.listing"]);
    // a link is followed, a folder or a place that is not there is a failure, /dev/null stays what it is
    symlink(&path, folder.join("link")).unwrap();
    assert_eq!(
        plan("examples/labeller.sheet", &folder.join("link")),
        Some(0)
    );
    assert_eq!(
        fs::read_to_string(&path).unwrap(),
        file("examples/labeller.listing")
    );
    assert!(fs::symlink_metadata(folder.join("link"))
        .unwrap()
        .file_type()
        .is_symlink());
    assert_eq!(plan("examples/labeller.sheet", &folder), Some(3));
    assert_eq!(
        plan("examples/labeller.sheet", &folder.join("none/out")),
        Some(3)
    );
    assert_eq!(
        plan("examples/labeller.sheet", "/dev/full".as_ref()),
        Some(3)
    );
    assert_eq!(
        plan("examples/labeller.sheet", "/dev/null".as_ref()),
        Some(0)
    );
    assert!(!fs::metadata("/dev/null").unwrap().is_file());
    assert_eq!(names(&folder), ["link", "out.listing"]);
}

/// A new file has the permissions that the system gives to new files, one that is there keeps its own.
#[test]
fn permissions_are_kept() {
    let folder = folder("permissions");
    let mode = |path: &Path| fs::metadata(path).unwrap().permissions().mode();
    let (path, other) = (folder.join("out.listing"), folder.join("other"));
    File::create(&other).unwrap();
    let sheet = "examples/labeller.sheet";
    assert_eq!(plan_into(&path, sheet).status.code(), Some(0));
    assert_eq!(mode(&path), mode(&other));
    for kept in [0o600, 0o640, 0o755] {
        fs::set_permissions(&path, Permissions::from_mode(kept)).unwrap();
        assert_eq!(plan_into(&path, sheet).status.code(), Some(0));
        assert_eq!(mode(&path) & 0o777, kept);
    }
}

/// What cannot be written is told by the file's name and the system's words.
#[test]
fn failed_output_is_told() {
    let folder = folder("failed-output");
    let unwritable = |name: &str, cause: &str| {
        let inner = folder.join(name);
        format!("the folder {} cannot be written: {cause}", inner.display())
    };
    for (name, words) in [
        (
            "none/out",
            unwritable("none", "No such file or directory (os error 2)"),
        ),
        (
            "file/out",
            unwritable("file", "Not a directory (os error 20)"),
        ),
        ("none/..", "this is no file's name".to_owned()),
    ] {
        File::create(folder.join("file")).unwrap();
        let path = folder.join(name);
        let failed = plan_into(&path, "examples/labeller.sheet");
        assert_eq!(failed.status.code(), Some(3), "{name}");
        let said = format!("{}: {words}\n", path.display());
        assert_eq!(text(&failed.stderr), said);
    }
    assert_eq!(names(&folder), ["file"]);
}

/// An output that is the sheet, by whichever name, is wrong use. Nothing is written, whether the sheet
/// would be planned or refused.
#[test]
fn the_sheet_is_never_the_output() {
    let folder = folder("sheet-as-output");
    let path = folder.join("s.sheet");
    fs::create_dir(folder.join("sub")).unwrap();
    for sheet in [SHEET, "no sheet\n"] {
        for other in ["link", "hard", "link-to-link"] {
            let _ = fs::remove_file(folder.join(other));
        }
        fs::write(&path, sheet).unwrap();
        fs::hard_link(&path, folder.join("hard")).unwrap();
        symlink("s.sheet", folder.join("link")).unwrap();
        symlink("sub/../link", folder.join("link-to-link")).unwrap();
        let before = names(&folder);
        let whole = path.to_str().unwrap();
        for (input, output) in [
            ("s.sheet", "s.sheet"),
            ("s.sheet", "./s.sheet"),
            ("s.sheet", "sub/../s.sheet"),
            ("s.sheet", whole),
            (whole, "s.sheet"),
            ("s.sheet", "link"),
            ("s.sheet", "link-to-link"),
            ("link", "s.sheet"),
            ("s.sheet", "hard"),
            ("hard", "link"),
            ("-", "s.sheet"),
            ("-", "hard"),
            ("-", "/dev/stdin"),
            ("/dev/stdin", "link"),
        ] {
            for sub in [&["plan"][..], &["plan", "--json"], &["report"]] {
                let words = [sub, &[input, "-o", output]].concat();
                let wrong = program()
                    .args(&words)
                    .current_dir(&folder)
                    .stdin(File::open(&path).unwrap())
                    .output()
                    .unwrap();
                assert_eq!(wrong.status.code(), Some(2), "{words:?}");
                let in_json = words.contains(&"--json");
                assert_eq!(!wrong.stdout.is_empty(), in_json, "{words:?}");
                let name = if input == "-" {
                    "standard input"
                } else {
                    input
                };
                assert_eq!(
                    text(&wrong.stderr),
                    format!(
                        "{output}: this would overwrite the input {name}; \
                         choose another place for the output\n"
                    )
                );
                assert_eq!(fs::read_to_string(&path).unwrap(), sheet, "{words:?}");
            }
        }
        assert_eq!(names(&folder), before);
    }
    // a device is no file that is overwritten
    let both = spardimple(&["plan", "/dev/null", "-o", "/dev/null"]);
    assert_eq!(both.status.code(), Some(1));
}

/// A read-only file is not replaced, and a folder that cannot be written is named.
#[test]
fn what_may_not_be_written() {
    let folder = fs::canonicalize(folder("read-only")).unwrap();
    let (path, inner) = (folder.join("out.listing"), folder.join("inner"));
    fs::write(&path, "kept\n").unwrap();
    let allow = |path: &Path, mode| {
        fs::set_permissions(path, Permissions::from_mode(mode)).unwrap();
    };
    let failed = |mut program: Command, words: &[&str], out: &Path, said: &str| {
        let failed = program.args(words).arg("-o").arg(out).output().unwrap();
        assert_eq!(failed.status.code(), Some(3), "{words:?}");
        assert_eq!(text(&failed.stderr), said, "{words:?}");
    };
    let (plan, report) = (
        &["plan", "examples/labeller.sheet"],
        &["report", "examples/labeller.sheet"],
    );
    let of = |path: &Path, why: &str| format!("{}: {why}\n", path.display());
    allow(&path, 0o444);
    for words in [plan, report] {
        failed(program(), words, &path, &of(&path, "the file is read-only"));
    }
    assert_eq!(fs::metadata(&path).unwrap().mode() & 0o777, 0o444);
    if bound().is_none() {
        println!("nobody cannot run the program here; what root may write is not tested");
        return;
    }
    let denied = "Permission denied (os error 13)";
    allow(&folder, 0o777);
    allow(&path, 0o020);
    failed(bound().unwrap(), plan, &path, &of(&path, denied));
    allow(&path, 0o666);
    allow(&folder, 0o555);
    let unwritable = format!(
        "the folder {} cannot be written: {denied}",
        folder.display()
    );
    for out in [&path, &inner] {
        for words in [plan, report] {
            failed(bound().unwrap(), words, out, &of(out, &unwritable));
        }
    }
    let sheets = self::folder("read-only-sheets");
    fs::write(sheets.join("out.sheet"), SHEET).unwrap();
    let batch = ["batch", sheets.to_str().unwrap()];
    failed(bound().unwrap(), &batch, &folder, &of(&path, &unwritable));
    let unmade = format!("the folder {} cannot be made: {denied}\n", inner.display());
    failed(bound().unwrap(), &batch, &inner, &unmade);
    assert_eq!(fs::read_to_string(&path).unwrap(), "kept\n");
    assert_eq!(names(&folder), ["out.listing"]);
    allow(&folder, 0o755);
}

/// Standard output that is the sheet itself is wrong use, whichever way the shell opened it. What was
/// appended to keeps its bytes.
#[test]
fn standard_output_is_never_the_sheet() {
    let path = folder("output-is-sheet").join("s.sheet");
    for command in ["plan", "show", "report", "fmt", "check", "desk"] {
        for (append, words) in [(true, SHEET), (false, "")] {
            fs::write(&path, SHEET).unwrap();
            let mut options = File::options();
            options.write(true).append(append).truncate(!append);
            let wrong = program()
                .arg(command)
                .arg(&path)
                .stdout(options.open(&path).unwrap())
                .output()
                .unwrap();
            assert_eq!(wrong.status.code(), Some(2), "{command}");
            let said = format!("{}: standard output is this file itself", path.display());
            assert!(text(&wrong.stderr).starts_with(&said), "{command}");
            assert_eq!(fs::read_to_string(&path).unwrap(), words, "{command}");
        }
    }
}

/// Standard output that is closed loses the answer, and says so; what goes to a file is not lost.
#[test]
fn closed_output() {
    let run = |words: &str| {
        let runner = std::env::var("CARGO_TARGET_X86_64_UNKNOWN_LINUX_GNU_RUNNER");
        let program = env!("CARGO_BIN_EXE_spardimple");
        let line = format!("{} '{program}' {words}", runner.unwrap_or_default());
        let mut shell = Command::new("sh");
        shell.args(["-c", &line]).current_dir(root(""));
        shell.output().unwrap()
    };
    for words in [
        "plan examples/film-line.sheet",
        "man",
        "verdict --table examples/film-core.table",
    ] {
        let lost = run(&format!("{words} >&-"));
        assert_eq!(lost.status.code(), Some(3), "{words}");
        assert_eq!(
            text(&lost.stderr),
            "standard output: it is closed\n",
            "{words}"
        );
        assert_eq!(
            run(&format!("{words} >/dev/null")).status.code(),
            Some(0),
            "{words}"
        );
    }
    let out = folder("closed").join("film.listing");
    let kept = run(&format!(
        "plan examples/film-line.sheet -o '{}' >&-",
        out.display()
    ));
    assert_eq!(kept.status.code(), Some(0));
    assert_eq!(
        fs::read_to_string(out).unwrap(),
        file("examples/film-line.listing")
    );
}

/// A link that leads nowhere stays, and the answer is not written in its place.
#[test]
fn a_link_that_leads_nowhere() {
    let folder = folder("nowhere");
    let link = folder.join("link");
    symlink("missing/plan.listing", &link).unwrap();
    let failed = plan_into(&link, "examples/labeller.sheet");
    assert_eq!(failed.status.code(), Some(3));
    let said = format!("{}: this is a link that leads nowhere\n", link.display());
    assert_eq!(text(&failed.stderr), said);
    assert_eq!(
        fs::read_link(&link).unwrap().to_str(),
        Some("missing/plan.listing")
    );
    assert_eq!(names(&folder), ["link"]);
}
