//! `spardimple batch`, end to end: all sheets of a folder are planned, whatever becomes of one, and the
//! summary tells what to mend.

#![warn(clippy::all, clippy::pedantic)]

mod common;

use common::command::{batch, bound, file, folder, names, spardimple, text};
use inputs::sheets::{LISTING, SHEET};
use std::ffi::OsStr;
use std::fs::{self, File, Permissions};
use std::os::unix::ffi::OsStrExt;
use std::os::unix::fs::{symlink, PermissionsExt};
use std::os::unix::net::UnixListener;
use std::path::Path;
use std::process::{Command, Output};

/// All sheets are planned, whatever becomes of one; the worst status is the command's.
#[test]
fn batches() {
    let (sheets, out) = (folder("batch"), folder("batch-out"));
    for name in ["film-line", "film-line-mistyped", "labeller"] {
        let file = format!("{name}.sheet");
        fs::write(sheets.join(&file), self::file(&format!("examples/{file}"))).unwrap();
    }
    fs::write(sheets.join("notes.txt"), "no sheet").unwrap();
    let done = batch(&sheets, &out);
    assert_eq!(done.status.code(), Some(1));
    assert_eq!(
        text(&done.stdout),
        "sheet                     answer                  tasks  pieces  reason
film-line-mistyped.sheet  refused (5) at line 14                 no part `servo-1m` above; `servo-1ms`, `servo-2ms` are different parts
film-line.sheet           planned                    11      12
labeller.sheet            planned                     9       9
3 sheets: 2 planned, 1 refused, 0 not read or written
"
    );
    assert!(text(&done.stderr).contains("film-line-mistyped.sheet:14: refused (5)"));
    assert!(
        !text(&done.stderr).contains('\r'),
        "no bar where there is no terminal"
    );
    assert_eq!(names(&out), ["film-line.listing", "labeller.listing"]);
    for name in names(&out) {
        let listing = fs::read_to_string(out.join(&name)).unwrap();
        assert_eq!(listing, file(&format!("examples/{name}")));
    }
    symlink("none", sheets.join("link.sheet")).unwrap();
    let done = batch(&sheets, &out);
    assert_eq!(done.status.code(), Some(3));
    assert!(text(&done.stdout).ends_with("4 sheets: 2 planned, 1 refused, 1 not read or written\n"));
    let none = spardimple(&["batch".as_ref(), out.as_os_str()]);
    assert_eq!(none.status.code(), Some(0));
    assert!(
        text(&none.stdout).ends_with("no sheets: 0 planned, 0 refused, 0 not read or written\n")
    );
    assert_eq!(
        spardimple(&["batch", "examples/none"]).status.code(),
        Some(3)
    );
}

/// A batch that would write a listing over one of its sheets is wrong use as a whole: no other listing
/// is written, and no folder is made.
#[test]
fn a_batch_overwrites_none_of_its_sheets() {
    let (sheets, out) = (folder("batch-sheets"), folder("batch-listings"));
    let sheet = |name: &str| sheets.join(name);
    for name in ["a.sheet", "b.sheet"] {
        fs::write(sheet(name), SHEET).unwrap();
    }
    let refused = |out: &Path, written: &Path, input: &str| {
        let before = names(&sheets);
        let wrong = batch(&sheets, out);
        assert_eq!(wrong.status.code(), Some(2), "{written:?}");
        assert!(wrong.stdout.is_empty());
        let (written, input) = (written.display(), sheet(input));
        assert_eq!(
            text(&wrong.stderr),
            format!(
                "{written}: this would overwrite the input {}; \
                 choose another place for the output\n",
                input.display()
            )
        );
        assert_eq!(names(&sheets), before);
        for name in ["a.sheet", "b.sheet"] {
            assert_eq!(fs::read_to_string(sheet(name)).unwrap(), SHEET);
        }
    };
    refused(&sheet("b.sheet"), &sheet("b.sheet"), "b.sheet");
    let listing = out.join("b.listing");
    fs::hard_link(sheet("a.sheet"), &listing).unwrap();
    refused(&out, &listing, "a.sheet");
    fs::remove_file(&listing).unwrap();
    symlink(sheet("b.sheet"), &listing).unwrap();
    refused(&out, &listing, "b.sheet");
    assert_eq!(names(&out), ["b.listing"]);
    // a sheet that is a link to where a listing goes
    fs::write(sheet("a.listing"), SHEET).unwrap();
    symlink("a.listing", sheet("c.sheet")).unwrap();
    refused(&sheets, &sheet("a.listing"), "c.sheet");
    fs::remove_file(sheet("c.sheet")).unwrap();
    // beside the sheets there is room
    assert_eq!(batch(&sheets, &sheets).status.code(), Some(0));
    let listings = ["a.listing", "a.sheet", "b.listing", "b.sheet"];
    assert_eq!(names(&sheets), listings);
}

/// The summary names each older listing of a sheet that is not planned now; it is left as it was.
#[test]
fn a_batch_names_older_listings() {
    let (sheets, out) = (folder("batch-now"), folder("batch-older"));
    for name in ["a.sheet", "b.sheet", "c.sheet"] {
        fs::write(sheets.join(name), SHEET).unwrap();
    }
    assert_eq!(batch(&sheets, &out).status.code(), Some(0));
    fs::write(sheets.join("b.sheet"), "no sheet\n").unwrap();
    fs::write(sheets.join("d.sheet"), "no sheet\n").unwrap();
    let done = batch(&sheets, &out);
    assert_eq!(done.status.code(), Some(1));
    let rows = "sheet    answer                 tasks  pieces  reason
a.sheet  planned                    3       4
b.sheet  refused (8) at line 1                 the line should begin with `machine` and a tab
c.sheet  planned                    3       4
d.sheet  refused (8) at line 1                 the line should begin with `machine` and a tab
";
    let older = |name: &str| {
        let listing = out.join(format!("{name}.listing"));
        let listing = listing.display();
        format!("{name}.sheet: an older listing of it is still there, unchanged: {listing}\n")
    };
    let sum = "4 sheets: 2 planned, 2 refused, 0 not read or written\n";
    assert_eq!(text(&done.stdout), [rows, &older("b"), sum].concat());
    assert_eq!(names(&out), ["a.listing", "b.listing", "c.listing"]);
    assert_eq!(fs::read_to_string(out.join("b.listing")).unwrap(), LISTING);
    // a listing that may not be written is an older one too
    let kept = out.join("c.listing");
    fs::write(&kept, "kept\n").unwrap();
    fs::set_permissions(&kept, Permissions::from_mode(0o444)).unwrap();
    let done = batch(&sheets, &out);
    assert_eq!(done.status.code(), Some(3));
    let said = text(&done.stdout);
    assert!(said.contains(&[older("b"), older("c")].concat()), "{said}");
    assert!(said.ends_with("1 planned, 2 refused, 1 not read or written\n"));
    assert!(
        said.contains("its listing: the file is read-only\n"),
        "{said}"
    );
    let why = format!("{}: the file is read-only\n", kept.display());
    assert!(text(&done.stderr).contains(&why));
    assert_eq!(fs::read_to_string(&kept).unwrap(), "kept\n");
}

/// Runs `batch` on a folder, with other words behind it.
fn batch_with(sheets: &Path, words: &[&str]) -> Output {
    let mut all = vec!["batch".as_ref(), sheets.as_os_str()];
    all.extend(words.iter().map(OsStr::new));
    spardimple(&all)
}

/// What is named like a sheet and is no file is not opened, and is named; so is a file with a name in
/// other case. Hidden files are left out.
#[test]
fn what_is_no_sheet() {
    let sheets = folder("batch-odd");
    let sheet = |name: &str| sheets.join(name);
    for name in [
        "a.sheet",
        ".hidden.sheet",
        ".sheet",
        "Line2.SHEET",
        "b.Sheet",
        "c.sheet.txt",
    ] {
        fs::write(sheet(name), SHEET).unwrap();
    }
    fs::create_dir(sheet("folder.sheet")).unwrap();
    fs::create_dir(sheet("folder.SHEET")).unwrap();
    fs::create_dir(sheet("inner")).unwrap();
    fs::write(sheet("inner/x.sheet"), SHEET).unwrap();
    let made = Command::new("mkfifo").arg(sheet("fifo.sheet")).status();
    assert!(made.unwrap().success());
    // a socket's path may be no longer than 107 bytes
    let near = tempfile::tempdir().unwrap();
    let socket = near.path().join("socket");
    let _bound = UnixListener::bind(&socket).unwrap();
    for (name, leads) in [
        ("socket.sheet", socket.as_path()),
        ("zero.sheet", Path::new("/dev/zero")),
        ("linked-fifo.sheet", Path::new("fifo.sheet")),
        ("linked-folder.sheet", Path::new("inner")),
        ("linked.sheet", Path::new("a.sheet")),
        ("nowhere.sheet", Path::new("none")),
    ] {
        symlink(leads, sheet(name)).unwrap();
    }
    let done = batch_with(&sheets, &[]);
    assert_eq!(done.status.code(), Some(3));
    assert_eq!(
        text(&done.stdout),
        "sheet          answer               tasks  pieces  reason
a.sheet        planned                  3       4
linked.sheet   planned                  3       4
nowhere.sheet  not read or written                 No such file or directory (os error 2)
fifo.sheet: a FIFO, skipped
folder.sheet: a folder, skipped
linked-fifo.sheet: a FIFO, skipped
linked-folder.sheet: a link to a folder, skipped
socket.sheet: a socket, skipped
zero.sheet: a device, skipped
Line2.SHEET: not planned, since its name ends in .SHEET and not .sheet
b.Sheet: not planned, since its name ends in .Sheet and not .sheet
3 sheets: 2 planned, 0 refused, 1 not read or written
"
    );
    let said = format!(
        "{}: No such file or directory (os error 2)\n",
        sheet("nowhere.sheet").display()
    );
    assert_eq!(text(&done.stderr), said);
    // without the one that leads nowhere nothing is wrong
    fs::remove_file(sheet("nowhere.sheet")).unwrap();
    let done = batch_with(&sheets, &[]);
    assert_eq!(done.status.code(), Some(0));
    assert!(done.stderr.is_empty());
}

/// With `-r` the folders below are gone into, but not through links, nor into hidden ones. The listings
/// stand in the same folders below the one for listings, which may be one of them.
#[test]
fn folders_below() {
    let sheets = folder("batch-deep");
    let sheet = |name: &str| sheets.join(name);
    for inner in ["hall/line.sheet/cell", ".git", "empty"] {
        fs::create_dir_all(sheet(inner)).unwrap();
    }
    for name in [
        "top.sheet",
        "hall/a.sheet",
        "hall/line.sheet/cell/a.sheet",
        ".git/a.sheet",
    ] {
        fs::write(sheet(name), SHEET).unwrap();
    }
    fs::write(sheet("hall/bad.sheet"), "no sheet\n").unwrap();
    fs::write(sheet("hall/B.SHEET"), SHEET).unwrap();
    symlink("hall", sheet("linked")).unwrap();
    symlink("..", sheet("hall/up")).unwrap();
    let flat = batch_with(&sheets, &[]);
    assert_eq!(flat.status.code(), Some(0));
    assert!(
        text(&flat.stdout).ends_with("\n1 sheet: 1 planned, 0 refused, 0 not read or written\n")
    );
    let out = sheet("out");
    let summary = "sheet                         answer                 tasks  pieces  reason
hall/a.sheet                  planned                    3       4
hall/bad.sheet                refused (8) at line 1                 the line should begin with `machine` and a tab
hall/line.sheet/cell/a.sheet  planned                    3       4
top.sheet                     planned                    3       4
hall/up: a link to a folder, skipped
linked: a link to a folder, skipped
hall/B.SHEET: not planned, since its name ends in .SHEET and not .sheet
4 sheets: 3 planned, 1 refused, 0 not read or written
";
    for words in [&["-r", "-o"], &["--recursive", "--out"]] {
        let done = batch_with(&sheets, &[words[0], words[1], out.to_str().unwrap()]);
        assert_eq!(done.status.code(), Some(1));
        assert_eq!(text(&done.stdout), summary);
        let said = text(&done.stderr);
        assert!(said.starts_with(&format!(
            "{}:1: refused (8)",
            sheet("hall/bad.sheet").display()
        )));
        assert_eq!(names(&out), ["hall", "top.listing"]);
        assert_eq!(names(&out.join("hall")), ["a.listing", "line.sheet"]);
        assert_eq!(names(&out.join("hall/line.sheet/cell")), ["a.listing"]);
        for name in [
            "top.listing",
            "hall/a.listing",
            "hall/line.sheet/cell/a.listing",
        ] {
            assert_eq!(fs::read_to_string(out.join(name)).unwrap(), LISTING);
        }
    }
    // an older listing is named by its whole path
    fs::write(out.join("hall/bad.listing"), LISTING).unwrap();
    let done = batch_with(&sheets, &["-r", "-o", out.to_str().unwrap()]);
    let older = out.join("hall/bad.listing");
    let older = format!(
        "\nhall/bad.sheet: an older listing of it is still there, unchanged: {}\n",
        older.display()
    );
    assert!(text(&done.stdout).contains(&older));
    // where a folder for listings cannot be made, its sheets fail and the others do not
    let blocked = folder("batch-blocked");
    File::create(blocked.join("hall")).unwrap();
    let done = batch_with(&sheets, &["-r", "-o", blocked.to_str().unwrap()]);
    assert_eq!(done.status.code(), Some(3));
    let said = text(&done.stdout);
    let made = blocked.join("hall");
    let made = format!("the folder {} cannot be made: ", made.display());
    assert_eq!(said.matches(&made).count(), 1, "{said}");
    assert!(
        said.ends_with("\n4 sheets: 1 planned, 1 refused, 2 not read or written\n"),
        "{said}"
    );
}

/// Links among the folders for listings that would make two listings one are wrong use.
#[test]
fn no_listing_is_shared() {
    let (sheets, out) = (folder("batch-twins"), folder("batch-one"));
    for inner in ["one", "two"] {
        fs::create_dir(sheets.join(inner)).unwrap();
        fs::write(sheets.join(inner).join("a.sheet"), SHEET).unwrap();
    }
    let words = ["-r", "-o", out.to_str().unwrap()];
    let shared = |written: &str| {
        let before = names(&out);
        let wrong = batch_with(&sheets, &words);
        assert_eq!(wrong.status.code(), Some(2));
        assert!(wrong.stdout.is_empty());
        assert_eq!(
            text(&wrong.stderr),
            format!(
                "{}: this would be the listing of {} and of {}; choose another place for the output\n",
                out.join(written).display(),
                sheets.join("one/a.sheet").display(),
                sheets.join("two/a.sheet").display()
            )
        );
        assert_eq!(names(&out), before);
    };
    fs::create_dir(out.join("one")).unwrap();
    symlink("one", out.join("two")).unwrap();
    shared("two/a.listing");
    fs::remove_file(out.join("two")).unwrap();
    fs::create_dir(out.join("two")).unwrap();
    File::create(out.join("one/a.listing")).unwrap();
    symlink("../one/a.listing", out.join("two/a.listing")).unwrap();
    shared("two/a.listing");
    fs::remove_file(out.join("two/a.listing")).unwrap();
    assert_eq!(batch_with(&sheets, &words).status.code(), Some(0));
}

/// A folder that cannot be read is named, and the rest goes on.
#[test]
fn a_folder_that_cannot_be_read() {
    let sheets = folder("batch-closed");
    let closed = sheets.join("closed");
    fs::create_dir(&closed).unwrap();
    fs::write(sheets.join("a.sheet"), SHEET).unwrap();
    fs::write(sheets.join("z.sheet"), SHEET).unwrap();
    let allow = |path: &Path, mode| {
        fs::set_permissions(path, Permissions::from_mode(mode)).unwrap();
    };
    let mut program = if let Some(program) = bound() {
        program
    } else {
        println!("nobody cannot run the program here; what root may read is not tested");
        return;
    };
    allow(&closed, 0o000);
    allow(&sheets.join("z.sheet"), 0o000);
    let done = program.args(["batch", "-r"]).arg(&sheets).output().unwrap();
    allow(&closed, 0o755);
    assert_eq!(done.status.code(), Some(3));
    let denied = "Permission denied (os error 13)";
    assert_eq!(
        text(&done.stdout),
        format!(
            "sheet    answer               tasks  pieces  reason
a.sheet  planned                  3       4
z.sheet  not read or written                 {denied}
closed: the folder cannot be read: {denied}
2 sheets: 1 planned, 0 refused, 1 not read or written
"
        )
    );
    let told = |path: &Path| format!("{}: {denied}\n", path.display());
    let said = [told(&sheets.join("z.sheet")), told(&closed)].concat();
    assert_eq!(text(&done.stderr), said);
}

/// A quiet batch prints what is not planned, and the sum.
#[test]
fn quiet_batches() {
    let sheets = folder("batch-quiet");
    fs::write(sheets.join("a.sheet"), SHEET).unwrap();
    let sum = "1 sheet: 1 planned, 0 refused, 0 not read or written\n";
    for word in ["-q", "--quiet"] {
        let done = batch_with(&sheets, &[word]);
        assert_eq!(done.status.code(), Some(0));
        assert_eq!((text(&done.stdout).as_str(), done.stderr.len()), (sum, 0));
    }
    fs::write(
        sheets.join("b.sheet"),
        SHEET.replace("machine\t2", "machine\t1"),
    )
    .unwrap();
    fs::write(sheets.join("B.SHEET"), SHEET).unwrap();
    let done = batch_with(&sheets, &["-q"]);
    assert_eq!(done.status.code(), Some(1));
    assert!(done.stderr.is_empty());
    assert_eq!(
        text(&done.stdout),
        "sheet    answer                 tasks  pieces  reason
b.sheet  refused (7) at line 5                 no core has room for task 2, `feed`
B.SHEET: not planned, since its name ends in .SHEET and not .sheet
2 sheets: 1 planned, 1 refused, 0 not read or written
"
    );
}

/// Names may be any bytes, those of folders too.
#[test]
fn names_that_are_no_text() {
    let (sheets, out) = (folder("batch-bytes"), folder("batch-bytes-out"));
    let inner = sheets.join(OsStr::from_bytes(b"hall-\xff"));
    fs::create_dir(&inner).unwrap();
    fs::write(inner.join(OsStr::from_bytes(b"\n.sheet")), SHEET).unwrap();
    fs::write(inner.join(OsStr::from_bytes(b"\xfe.ShEeT")), SHEET).unwrap();
    let done = batch_with(&sheets, &["-r", "-o", out.to_str().unwrap()]);
    assert_eq!(done.status.code(), Some(0));
    assert_eq!(
        text(&done.stdout),
        "sheet               answer   tasks  pieces  reason
hall-\\xff/\\n.sheet  planned      3       4
hall-\\xff/\\xfe.ShEeT: not planned, since its name ends in .ShEeT and not .sheet
1 sheet: 1 planned, 0 refused, 0 not read or written
"
    );
    let listing = out.join(OsStr::from_bytes(b"hall-\xff/\n.listing"));
    assert_eq!(fs::read_to_string(listing).unwrap(), LISTING);
}
