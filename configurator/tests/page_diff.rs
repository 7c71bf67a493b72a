//! The page of `diff`, as it is written: both plans side by side, exactly what moved set apart, and the
//! figures; and that it is written whole or not at all.

#![warn(clippy::all, clippy::pedantic)]

mod common;

use common::command::{file, folder, names, root, spardimple, spardimple_fed, text};
use common::page::{assert_alone, bars, drawings, moved, moved_examples};
use std::fs::{self, Permissions};
use std::os::unix::fs::PermissionsExt;
use std::path::Path;

const FILM: &str = "examples/film-line.sheet";
const NEW_DOSING: &str = "examples/film-line-new-dosing.sheet";

/// A piece as a drawing shows it: its plan, 0 or 1, the class and the sign of its row, and the title of
/// its bar.
type Shown = (usize, String, String, String);

/// The pieces of a drawing.
fn shown(drawing: &str) -> Vec<Shown> {
    let mut shown = Vec::new();
    for chart in drawing.split("<th>Core ").skip(1) {
        let title = chart.split('<').next().unwrap();
        let plan = ["was", "now"].iter().position(|word| title.ends_with(word));
        let rows = chart.split("<tr ").skip(1);
        for row in rows.filter(|row| row.contains("<svg class=\"piece ")) {
            let cut = |from: &str, to: char| {
                let behind = row.split_once(from).map_or("", |(_, behind)| behind);
                behind.split(to).next().unwrap().to_owned()
            };
            let (class, sign) = (cut("class=\"", '"'), cut("<b class=\"sign\">", '<'));
            shown.push((plan.expect(title), class, sign, cut("<title>", '<')));
        }
    }
    shown.sort();
    shown
}

/// The pieces of two plans, as they should be shown by the plans' listings and the lines of what moved.
fn expected(listings: &[String; 2], diff: &str) -> Vec<Shown> {
    let split = |line: &'_ str| line.split('\t').map(str::to_owned).collect::<Vec<_>>();
    let lines: Vec<Vec<String>> = diff.lines().skip(1).map(split).collect();
    let words = [["only1", "was"], ["only2", "now"]];
    let of = |plan: usize| {
        let own = move |line: &&Vec<String>| words[plan].contains(&line[0].as_str());
        lines.iter().filter(own)
    };
    let mut expected = Vec::new();
    for (plan, listing) in listings.iter().enumerate() {
        for piece in listing.lines().skip(1).map(split) {
            let [core, task, kind] = [1, 2, 3].map(|at| piece[at].as_str());
            let line = of(plan).find(|line| line[1..4] == [task, core, kind]);
            // of a task that moved, a piece may be the same in both plans
            let moved = line.filter(|line| of(1 - plan).all(|other| other[1..] != line[1..]));
            let (class, sign, words) = match moved.map(|line| line[0].as_str()) {
                None => ("stayed", "", ""),
                Some("only1") => ("moved went", "−", ", only in the first plan"),
                Some("only2") => ("moved came", "+", ", only in the second plan"),
                Some(_) => ("moved", "≠", ", moved"),
            };
            let title = format!(
                "{task}, {kind}, core {core}: budget {} in a window of {}, jitter {}, charged {}{words}",
                piece[4], piece[5], piece[6], piece[7]
            );
            expected.push((plan, class.to_owned(), sign.to_owned(), title));
        }
    }
    expected.sort();
    expected
}

/// What a command prints about sheets.
fn printed(words: &[&str], sheets: &[&Path]) -> String {
    let words = words.iter().map(AsRef::as_ref);
    let sheets = sheets.iter().map(|sheet| sheet.as_os_str());
    text(&spardimple(&words.chain(sheets).collect::<Vec<_>>()).stdout)
}

/// Looks that each drawing of a page has all pieces of both plans, and sets exactly those apart that moved.
/// How many did, and how many are the same though their tasks moved.
fn assert_shows(page: &str, sheets: [&Path; 2]) -> (usize, usize) {
    assert_alone(page);
    let listings = sheets.map(|sheet| printed(&["plan"], &[sheet]));
    let diff = printed(&["diff", "--listing"], &sheets);
    let right = expected(&listings, &diff);
    let parts: Vec<&str> = page.split("<div class=\"charts\"").skip(1).collect();
    assert_eq!(parts.len(), drawings(page));
    for part in &parts {
        let drawing = part.split("<h2>").next().unwrap();
        assert_eq!(shown(drawing), right);
    }
    assert_eq!(bars(page), parts.len() * right.len());
    let apart = right.iter().filter(|piece| piece.1 != "stayed").count();
    (apart, diff.lines().count() - 1 - apart)
}

/// Each drawing has each piece of both plans once, and marks exactly those that the other plan has not.
#[test]
fn both_plans_with_what_moved_set_apart() {
    let folder = folder("page-diff");
    for (names, status, moved) in [
        (["film-line", "film-line-new-dosing"], 1, 8),
        (["film-line-new-dosing", "film-line"], 1, 8),
        (["film-line", "case-packer"], 1, 26),
        (["labeller", "film-line"], 1, 21),
        (["labeller", "labeller"], 0, 0),
    ] {
        let (_, page) = moved_examples(&folder, names, status);
        let [first, second] = names.map(|name| root(&format!("examples/{name}.sheet")));
        assert_eq!(assert_shows(&page, [&first, &second]), (moved, 0));
    }
    // another precision of the clock makes the last piece later, and leaves the first as it was
    let (film, later) = (root(FILM), folder.join("later.sheet"));
    let sheet = file(FILM).replacen("\t10\t1\npart", "\t10\t0\npart", 1);
    fs::write(&later, sheet).unwrap();
    let (_, page) = moved(&folder, "later", [&film, &later], 1);
    assert_eq!(assert_shows(&page, [&film, &later]), (2, 2));
    assert!(page.contains("<span>jaw-cross: cores 2 and 3 as before, with other figures</span>"));
}

/// The sheets' names, the sentence, the figures with what changed, and what the page came from.
#[test]
fn words_and_figures() {
    let folder = folder("page-diff-words");
    let (film, new) = (folder.join("a<b>.sheet"), folder.join("c&d.sheet"));
    fs::write(&film, file(FILM)).unwrap();
    fs::write(&new, file(NEW_DOSING)).unwrap();
    let (path, page) = moved(&folder, "words", [&film, &new], 1);
    let sentence = "3 tasks moved, 0 came, 0 went, 8 stayed";
    let place = folder.display();
    for part in [
        &format!("<p class=\"sum\">{sentence}.</p>")[..],
        &format!(
            "<strong>Was</strong> {place}/a&lt;b&gt;.sheet: 11 tasks in 12 pieces on 3 cores, "
        ),
        &format!("<strong>Now</strong> {place}/c&amp;d.sheet: 11 tasks in 12 pieces on 3 cores, "),
        &format!(
            "<title>What moved from {place}/a&lt;b&gt;.sheet to {place}/c&amp;d.sheet</title>"
        ),
        "<span>dosing: from core 2 to core 3</span>",
        "<span>jaw-cross: from cores 2 and 3 to core 2</span>",
        "<tr><td class=\"name\">now</td><td class=\"n new\">*3</td><td class=\"t\">whole</td>\
         <td class=\"n new\">*900</td><td class=\"n\">4000</td><td class=\"n\">4000</td>\
         <td class=\"n\">0</td><td class=\"n\">40</td><td class=\"n\">80</td></tr>",
        "<tr><td class=\"name\">was</td><td class=\"n\">2</td><td class=\"t\">whole</td>\
         <td class=\"n\">1250</td>",
        "<h2>Figures <small>times in ticks</small></h2>",
    ] {
        assert_eq!(page.matches(part).count(), 1, "{part}");
    }
    assert_eq!(
        page.matches("SHA-256").count(),
        3,
        "two sheets and the library"
    );
    for sheet in [FILM, NEW_DOSING] {
        let digest = configurator::origin::digest(file(sheet).as_bytes());
        assert!(page.contains(&digest), "{sheet}");
    }
    let words = [
        "diff".as_ref(),
        "--unit".as_ref(),
        "us".as_ref(),
        "--page".as_ref(),
        "-".as_ref(),
        film.as_os_str(),
        new.as_os_str(),
    ];
    let in_us = spardimple(&words);
    assert_eq!(in_us.status.code(), Some(1));
    let ticks = fs::read_to_string(path).unwrap();
    assert_eq!(text(&in_us.stdout), ticks.replace("ticks", "us"));
}

/// Where nothing moved there are no figures; a machine may have fewer cores; and there may be no tasks.
#[test]
fn plans_that_differ_in_little() {
    let folder = folder("page-diff-little");
    let (_, same) = moved_examples(&folder, ["film-line", "film-line"], 0);
    assert!(same.contains("<p class=\"sum\">Nothing moved: 11 tasks stayed.</p>"));
    assert!(!same.contains("<h2>Figures") && same.contains("<tr class=\"stayed\">"));
    let (_, other) = moved_examples(&folder, ["labeller", "film-line"], 1);
    let none = "<p class=\"none\"><strong>Core 3 was</strong>: not in this machine</p>";
    assert_eq!(other.matches(none).count(), drawings(&other));
    let empty = folder.join("none.sheet");
    let none = "machine\t2\t1\ncost\t0\t0\t0\t0\t0\t0\t0\t0\t0\n";
    fs::write(&empty, none).unwrap();
    let (_, page) = moved(
        &folder,
        "none",
        [&empty, &root("examples/labeller.sheet")],
        1,
    );
    assert!(page.contains("<p class=\"none\"><strong>Core 2 was</strong>: no pieces</p>"));
    assert_eq!(
        page.matches("<b class=\"sign\">+</b>").count(),
        1 + bars(&page)
    );
    let (_, page) = moved(&folder, "both-none", [&empty, &empty], 0);
    assert_alone(&page);
    assert!(page.contains("Nothing moved: neither plan has a task."));
}

/// A refused sheet has no page, and what was there is as it was. So it is where the page cannot be written,
/// and where it would overwrite a sheet.
#[test]
fn whole_or_not_at_all() {
    let folder = folder("page-diff-files");
    let page = folder.join("moved.html");
    let at = |path: &Path| path.to_str().unwrap().to_owned();
    let diff = |first: &str, second: &str, page: &str| {
        let done = spardimple(&["diff", first, second, "--page", page]);
        assert!(done.stdout.is_empty());
        (done.status.code().unwrap(), text(&done.stderr))
    };
    fs::write(&page, "older").unwrap();
    let mistyped = "examples/film-line-mistyped.sheet";
    for (first, second) in [(FILM, mistyped), (mistyped, FILM), (mistyped, mistyped)] {
        let (status, said) = diff(first, second, &at(&page));
        assert_eq!(status, 6);
        assert!(said.starts_with("examples/film-line-mistyped.sheet:14: refused (5)"));
    }
    assert_eq!(fs::read_to_string(&page).unwrap(), "older");
    fs::set_permissions(&page, Permissions::from_mode(0o444)).unwrap();
    let (status, said) = diff(FILM, NEW_DOSING, &at(&page));
    assert_eq!(
        (status, said),
        (3, format!("{}: the file is read-only\n", at(&page)))
    );
    assert_eq!(fs::read_to_string(&page).unwrap(), "older");
    let (status, _) = diff(FILM, NEW_DOSING, &at(&folder.join("none/moved.html")));
    assert_eq!(status, 3);

    let sheet = folder.join("s.sheet");
    fs::copy(root(FILM), &sheet).unwrap();
    for sheets in [
        [at(&sheet), NEW_DOSING.to_owned()],
        [NEW_DOSING.to_owned(), at(&sheet)],
    ] {
        let (status, said) = diff(&sheets[0], &sheets[1], &at(&sheet));
        assert_eq!(status, 2);
        assert!(said.contains("this would overwrite the input"), "{said}");
    }
    assert_eq!(fs::read_to_string(&sheet).unwrap(), file(FILM));
    assert_eq!(names(&folder), ["moved.html", "s.sheet"]);

    fs::set_permissions(&page, Permissions::from_mode(0o644)).unwrap();
    let words = ["diff", "-", NEW_DOSING, "--page", &at(&page)];
    let done = spardimple_fed(&words, file(FILM).as_bytes());
    assert_eq!((done.status.code(), done.stdout.len()), (Some(1), 0));
    let written = fs::read_to_string(&page).unwrap();
    assert!(written.contains("<strong>Was</strong> standard input: 11 tasks"));
    assert!(written.ends_with("</html>\n"));
}
