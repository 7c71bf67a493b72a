//! `new`, end to end: the sheet that it writes plans, the words beside it explain every field, and
//! nothing is ever overwritten.

#![warn(clippy::all, clippy::pedantic)]

mod common;

use common::command::{bound, folder, names, program, spardimple, text, typed};
use configurator::command::fields::{LINES, SHEET};
use configurator::command::new::EXAMPLE;
use configurator::listing::Listing;
use configurator::quoted::Sheet;
use std::ffi::{OsStr, OsString};
use std::fs::{self, File};
use std::os::unix::ffi::OsStringExt;
use std::os::unix::fs::{symlink, PermissionsExt};
use std::path::Path;
use std::process::{Command, Output};

/// Runs `new` in a folder.
fn new(folder: &Path, file: impl AsRef<OsStr>) -> Output {
    let mut program = program();
    program.current_dir(folder).args(["new", "--"]).arg(file);
    program.output().unwrap()
}

/// What a failed `new` says; the folder holds those names, and nothing was printed.
fn fails(folder: &Path, file: &str, names_left: &[&str]) -> String {
    let failed = new(folder, file);
    assert_eq!(failed.status.code(), Some(3), "{file}");
    assert!(failed.stdout.is_empty(), "{file}");
    assert_eq!(names(folder), names_left, "{file}");
    text(&failed.stderr)
}

/// The words that stand beside a new sheet.
fn words() -> String {
    let folder = folder("new-words");
    assert_eq!(new(&folder, "line.sheet").status.code(), Some(0));
    fs::read_to_string(folder.join("line.sheet.txt")).unwrap()
}

#[test]
fn both_files_are_written() {
    let folder = folder("new");
    let done = new(&folder, "line.sheet");
    assert_eq!(done.status.code(), Some(0));
    assert_eq!(
        text(&done.stdout),
        "line.sheet: a sheet that plans
line.sheet.txt: what each line and each number of it means
next: spardimple plan line.sheet
"
    );
    assert!(done.stderr.is_empty());
    assert_eq!(names(&folder), ["line.sheet", "line.sheet.txt"]);
    let sheet = folder.join("line.sheet");
    assert_eq!(fs::read_to_string(&sheet).unwrap(), EXAMPLE);
    let planned = spardimple(&["plan".as_ref(), sheet.as_os_str()]);
    assert_eq!(planned.status.code(), Some(0));
    assert_eq!(
        text(&planned.stdout),
        "plan\t4\t5
piece\t1\tfeed\twhole\t1100\t2000\t0\t1165
piece\t1\tjaw\tfirst\t680\t830\t0\t775
piece\t2\tjaw\tlast\t420\t1170\t26\t525
piece\t2\tcutter\twhole\t1100\t2000\t0\t1165
piece\t2\tregister\twhole\t150\t1000\t50\t205
"
    );
    let shown = spardimple(&["show".as_ref(), "--unit=us".as_ref(), sheet.as_os_str()]);
    let shown = text(&shown.stdout);
    let (_, plan) = shown.split_once("4 tasks").unwrap();
    let words = fs::read_to_string(folder.join("line.sheet.txt")).unwrap();
    assert!(words.contains(&format!("\nThe plan: 4 tasks{plan}")));
}

/// The sheet shows all that a sheet can have: several parts and tasks, every cost, and a split.
#[test]
fn the_sheet_shows_much() {
    let sheet = Sheet::parse(EXAMPLE.as_bytes()).unwrap();
    assert!(sheet.parts.len() >= 2 && sheet.fits.len() >= 3);
    assert!(sheet.costs.iter().all(|&cost| cost != "0"));
    let listing = configurator::plan(EXAMPLE.as_bytes()).unwrap().unwrap();
    assert_eq!(Listing::parse(&listing).unwrap().splits().len(), 1);
}

/// Each line of the sheet stands in the words, and each field with its values and its sentences. The
/// words fit a narrow window.
#[test]
fn every_field_is_explained() {
    let words = words();
    for line in words.lines() {
        assert!(
            line.chars().count() <= 78 && line == line.trim_end(),
            "{line}"
        );
    }
    assert!(!words.contains('\t'));
    let flowing: Vec<&str> = words.split_whitespace().collect();
    let flowing = flowing.join(" ");
    assert!(flowing.contains(&SHEET.join(" ")));
    for (above, row) in EXAMPLE.lines().enumerate() {
        let row = row.replace('\t', "  ");
        assert!(words.contains(&format!("\nline {}:  {row}\n", above + 1)));
    }
    for line in &LINES {
        assert!(flowing.contains(&line.about.join(" ")), "{}", line.word);
        for (at, field) in line.fields.iter().enumerate() {
            let rows = EXAMPLE.lines().map(|row| row.split('\t').collect());
            let rows = rows.filter(|row: &Vec<&str>| row[0] == line.word);
            let values: Vec<&str> = rows.map(|row| row[at + 1]).collect();
            let (name, values) = (field.name, values.join(", "));
            assert!(words.contains(&format!("\n  {name}: {values}\n")), "{name}");
            let sentences = field.sentences().join(" ");
            assert!(
                flowing.contains(&format!(" {name}: {values} {sentences}")),
                "{name}"
            );
        }
    }
}

/// Where one of the two is there, as a file, a folder or a link that leads nowhere, none is written.
#[test]
fn nothing_is_overwritten() {
    let there = |name: &str| {
        format!("{name}: there already, and new overwrites nothing; choose another name\n")
    };
    for name in ["line.sheet", "line.sheet.txt"] {
        let folder = folder("new-there");
        fs::write(folder.join(name), "mine").unwrap();
        assert_eq!(fails(&folder, "line.sheet", &[name]), there(name));
        assert_eq!(fs::read(folder.join(name)).unwrap(), b"mine");
        fs::remove_file(folder.join(name)).unwrap();
        symlink("nowhere", folder.join(name)).unwrap();
        assert_eq!(fails(&folder, "line.sheet", &[name]), there(name));
        fs::remove_file(folder.join(name)).unwrap();
        fs::create_dir(folder.join(name)).unwrap();
        assert_eq!(fails(&folder, "line.sheet", &[name]), there(name));
        assert_eq!(names(&folder.join(name)), [""; 0]);
    }
    let folder = folder("new-twice");
    assert_eq!(new(&folder, "line.sheet").status.code(), Some(0));
    let both = ["line.sheet", "line.sheet.txt"];
    assert_eq!(fails(&folder, "line.sheet", &both), there("line.sheet"));
}

/// Where one of the two cannot be written, the other is not left behind.
#[test]
fn both_or_none() {
    let folder = folder("new-cannot");
    let missing = fails(&folder, "none/line.sheet", &[]);
    assert_eq!(
        missing,
        "none/line.sheet: No such file or directory (os error 2)\n"
    );
    // a file's name has at most 255 bytes, so the sheet can be written and the words cannot
    let long = "l".repeat(252);
    assert_eq!(
        fails(&folder, &long, &[]),
        format!("{long}.txt: File name too long (os error 36)\n")
    );
    // where a file may have 1,024 bytes, the words are cut short, and taken away again
    let new = format!("{} new line.sheet", typed());
    let failed = Command::new("bash")
        .args(["-c", &format!("trap '' XFSZ; ulimit -f 1; {new}")])
        .current_dir(&folder)
        .output()
        .unwrap();
    assert_eq!(failed.status.code(), Some(3));
    let large = "line.sheet.txt: File too large (os error 27)\n";
    assert_eq!(text(&failed.stderr), large);
    assert_eq!(names(&folder), [""; 0]);
    if let Some(mut bound) = bound() {
        fs::set_permissions(&folder, fs::Permissions::from_mode(0o555)).unwrap();
        let sheet = folder.join("line.sheet");
        let failed = bound.arg("new").arg(&sheet).output().unwrap();
        assert_eq!(failed.status.code(), Some(3));
        let denied = format!("{}: Permission denied (os error 13)\n", sheet.display());
        assert_eq!(text(&failed.stderr), denied);
        assert_eq!(names(&folder), [""; 0]);
    }
}

/// A file's name may be any bytes; what is to be typed next can be typed.
#[test]
fn odd_names() {
    for (name, said) in [
        ("Jo's line".into(), "Jo's line: a sheet that plans\nJo's line.txt: what each line and each number of it means\nnext: spardimple plan 'Jo'\\''s line'\n"),
        ("-x".into(), "-x: a sheet that plans\n-x.txt: what each line and each number of it means\nnext: spardimple plan ./-x\n"),
        (OsString::from_vec(vec![b'l', 0xff]), "l\\xff: a sheet that plans\nl\\xff.txt: what each line and each number of it means\nnext: spardimple plan FILE\n"),
    ] {
        let folder = folder("new-odd");
        let done = new(&folder, &name);
        assert_eq!(done.status.code(), Some(0), "{said}");
        assert_eq!(text(&done.stdout), said);
        assert_eq!(fs::read_to_string(folder.join(&name)).unwrap(), EXAMPLE);
    }
}

#[test]
fn wrong_use_and_lost_output() {
    for words in [&["new"][..], &["new", "one", "two"], &["new", "-"]] {
        let wrong = spardimple(words);
        assert_eq!(wrong.status.code(), Some(2), "{words:?}");
        assert!(wrong.stdout.is_empty(), "{words:?}");
    }
    assert_eq!(
        text(&spardimple(&["new", "-"]).stderr),
        "new writes two files, so FILE has to be a name and not -\n"
    );
    let folder = folder("new-lost");
    let full = File::options().write(true).open("/dev/full").unwrap();
    let mut program = program();
    program.current_dir(&folder).args(["new", "line.sheet"]);
    let lost = program.stdout(full).output().unwrap();
    assert_eq!(lost.status.code(), Some(3));
    assert_eq!(names(&folder), ["line.sheet", "line.sheet.txt"]);
}
