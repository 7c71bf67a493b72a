//! What a paper came from: the version, and the file beside a listing, held against other programs'
//! digests.

#![warn(clippy::all, clippy::pedantic)]

mod common;

use common::command::{file, folder, names, root, spardimple, text};
use std::fs;
use std::path::Path;
use std::process::Command;

/// What another program says, without the newline.
fn said(program: &str, words: &[&str]) -> String {
    let said = Command::new(program)
        .args(words)
        .current_dir(root(""))
        .output()
        .expect("the program runs");
    text(&said.stdout).trim_end().to_owned()
}

/// The digest of a file by `sha256sum`.
fn digest(path: &Path) -> String {
    said("sha256sum", &[path.to_str().unwrap()])[..64].to_owned()
}

/// The commit is one of this history, if there is one here; the digest is the archive's.
#[test]
fn version() {
    let version = text(&spardimple(&["--version"]).stdout);
    let lines: Vec<&str> = version.lines().collect();
    assert_eq!(lines.len(), 3, "{version}");
    assert_eq!(lines[0], "spardimple 0.1.0");
    let commit = lines[1].strip_prefix("commit ").unwrap();
    let commit = commit.strip_suffix(" with changes").unwrap_or(commit);
    if said("git", &["rev-parse", "--git-dir"]).is_empty() {
        assert_eq!(commit, "unknown");
    } else {
        assert_eq!(commit.len(), 40);
        assert_eq!(said("git", &["rev-parse", "HEAD"]), commit);
    }
    let archive = digest(&root("target/staticlib/libspardimple.a"));
    assert_eq!(lines[2], format!("libspardimple.a SHA-256 {archive}"));
}

/// The file beside a listing has the digests of the sheet and of the listing, whose own bytes stay as
/// they are. A refused sheet leaves both as they were.
#[test]
fn beside_a_listing() {
    let folder = folder("origin");
    let listing = folder.join("film.listing");
    let plan = |sheet: &str| {
        let out = listing.to_str().unwrap();
        spardimple(&["plan", sheet, "-o", out, "--origin"])
    };
    let sheet = "examples/film-line.sheet";
    assert_eq!(plan(sheet).status.code(), Some(0));
    assert_eq!(names(&folder), ["film.listing", "film.listing.origin"]);
    let written = fs::read_to_string(&listing).unwrap();
    assert_eq!(written, file("examples/film-line.listing"));
    let origin = fs::read_to_string(folder.join("film.listing.origin")).unwrap();
    let version = text(&spardimple(&["--version"]).stdout);
    let version: Vec<&str> = version.lines().collect();
    let expected = format!(
        "program\t{}\ncommit\t{}\nlibspardimple.a\t{}\nsheet\t{}\t{sheet}\nlisting\t{}\n",
        version[0],
        &version[1]["commit ".len()..],
        digest(&root("target/staticlib/libspardimple.a")),
        digest(&root(sheet)),
        digest(&listing)
    );
    assert_eq!(origin, expected);
    assert_eq!(
        plan("examples/film-line-mistyped.sheet").status.code(),
        Some(1)
    );
    assert_eq!(fs::read_to_string(&listing).unwrap(), written);
    let after = fs::read_to_string(folder.join("film.listing.origin")).unwrap();
    assert_eq!(after, expected);
}

/// So has one beside each listing of a batch, and the foot of a report.
#[test]
fn batches_and_reports() {
    let (sheets, out) = (folder("origin-batch"), folder("origin-listings"));
    fs::copy(root("examples/film-line.sheet"), sheets.join("a.sheet")).unwrap();
    fs::write(sheets.join("b.sheet"), "no sheet").unwrap();
    let words = [
        "batch",
        sheets.to_str().unwrap(),
        "-o",
        out.to_str().unwrap(),
        "--origin",
    ];
    assert_eq!(spardimple(&words).status.code(), Some(1));
    assert_eq!(names(&out), ["a.listing", "a.listing.origin"]);
    let origin = fs::read_to_string(out.join("a.listing.origin")).unwrap();
    for path in [sheets.join("a.sheet"), out.join("a.listing")] {
        assert!(origin.contains(&digest(&path)), "{origin}");
    }
    let page = text(&spardimple(&["report", "examples/film-line.sheet"]).stdout);
    let version = text(&spardimple(&["--version"]).stdout);
    let commit = version
        .lines()
        .nth(1)
        .unwrap()
        .strip_prefix("commit ")
        .unwrap();
    let archive = root("target/staticlib/libspardimple.a");
    let sheet = root("examples/film-line.sheet");
    for words in [commit, &digest(&archive), &digest(&sheet)] {
        let foot = page.split("<footer>").nth(1).unwrap();
        assert!(foot.contains(&format!("<code>{words}</code>")), "{foot}");
    }
}

/// There is no file beside standard output, and the sheet is never overwritten.
#[test]
fn nowhere_to_put_it() {
    let sheet = "examples/film-line.sheet";
    for words in [
        &["plan", sheet, "--origin"][..],
        &["plan", sheet, "--origin", "-o", "-"],
        &["plan", sheet, "--origin", "-o", "/dev/null"],
    ] {
        let refused = spardimple(words);
        assert_eq!(refused.status.code(), Some(2), "{words:?}");
        assert!(refused.stdout.is_empty());
    }
    let folder = folder("origin-sheet");
    let path = folder.join("a.origin");
    fs::copy(root(sheet), &path).unwrap();
    let (path, out) = (path.to_str().unwrap(), folder.join("a"));
    let refused = spardimple(&["plan", path, "-o", out.to_str().unwrap(), "--origin"]);
    assert_eq!(refused.status.code(), Some(2));
    assert_eq!(names(&folder), ["a.origin"]);
    assert_eq!(fs::read_to_string(path).unwrap(), file(sheet));
}

/// Listing and origin are written together or not at all; an origin of an older listing is named.
#[test]
fn listing_and_origin_fit() {
    let folder = folder("origin-fits");
    let listing = folder.join("a.listing");
    let out = listing.to_str().unwrap();
    let plan = |name: &str, more: &[&str]| {
        let sheet = format!("examples/{name}.sheet");
        spardimple(&[&["plan", &sheet, "-o", out], more].concat())
    };
    assert_eq!(plan("film-line", &["--origin"]).status.code(), Some(0));
    let later = plan("labeller", &[]);
    assert_eq!(later.status.code(), Some(0));
    let said = format!("{out}.origin: this is of an older listing\n");
    assert_eq!(text(&later.stderr), said);
    fs::remove_file(format!("{out}.origin")).unwrap();
    fs::create_dir(format!("{out}.origin")).unwrap();
    let failed = plan("film-line", &["--origin"]);
    assert_eq!(failed.status.code(), Some(3));
    let written = fs::read_to_string(&listing).unwrap();
    assert_eq!(written, file("examples/labeller.listing"));
    assert_eq!(names(&folder), ["a.listing", "a.listing.origin"]);
}
