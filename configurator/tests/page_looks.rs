//! The pages of `report` and `diff`, as the browser shows them: on a desk, on a phone and on paper.
//! Pictures to look at are in the folder that is printed.

#![warn(clippy::all, clippy::pedantic)]

mod common;

use common::command::{folder, text};
use common::long::{tallest, widest};
use common::page::{bars, curves, drawings, example, figures, made, made_moved, moved_examples};
use std::fmt::Write;
use std::fs;
use std::path::Path;
use std::process::Command;

/// Runs the browser on a page.
fn chromium(profile: &str, words: &[&str], path: &Path) -> Vec<u8> {
    let browser = "/usr/bin/chromium";
    assert!(
        Path::new(browser).exists(),
        "{browser} is missing, and pages are looked at in it: apt-get install chromium poppler-utils"
    );
    let fixed = "--headless --no-sandbox --disable-gpu --disable-dev-shm-usage --no-first-run";
    let output = Command::new("timeout")
        .args(["120", browser])
        .args(fixed.split(' '))
        .arg(format!("--user-data-dir={}", folder(profile).display()))
        .args(words)
        .arg(format!("file://{}", path.display()))
        .output()
        .expect("chromium runs");
    let said = String::from_utf8_lossy(&output.stderr);
    assert!(output.status.success(), "{said}");
    output.stdout
}

/// A picture of a page.
fn picture(path: &Path, name: &str, size: &str) {
    let picture = path.with_file_name(name);
    let option = format!("--screenshot={}", picture.display());
    let size = format!("--window-size={size}");
    let options = ["--hide-scrollbars", &size, &option];
    chromium("page-picture-profile", &options, path);
    let bytes = fs::read(&picture).expect("there is a picture");
    println!("{}: {} bytes", picture.display(), bytes.len());
    assert!(bytes.starts_with(b"\x89PNG") && bytes.len() > 20_000);
}

/// The browser's own tree is the page's: it mends nothing and leaves nothing out.
#[test]
fn in_a_browser() {
    let folder = folder("page-browser");
    for (name, (path, page)) in [
        ("film-line", example(&folder, "film-line", 0)),
        ("mistyped", example(&folder, "film-line-mistyped", 1)),
        ("moved", moved_examples(&folder, NEW_DOSING, 1)),
    ] {
        let tree = text(&chromium("page-profile", &["--dump-dom"], &path));
        let tags = |page: &str| {
            let body = page[page.find("<body>").unwrap()..].to_owned();
            let opened: Vec<String> = (body.split('<').skip(1))
                .filter(|tag| !tag.starts_with('/'))
                .map(|tag| tag.split([' ', '>', '/']).next().unwrap().to_owned())
                .collect();
            opened
        };
        assert_eq!(tags(&tree), tags(&page), "{name}");
    }
}

/// Looks at each page in frames of several widths, by `looks.js`, which tells what lies outside its
/// place or upon something else.
#[test]
fn on_a_desk_and_on_a_phone() {
    let folder = folder("page-widths");
    let none = "machine\t3\t1\ncost\t0\t0\t0\t0\t0\t0\t0\t0\t0\n";
    let pages = [
        ("film-line", example(&folder, "film-line", 0).1),
        ("case-packer", example(&folder, "case-packer", 0).1),
        (
            "film-line-mistyped",
            example(&folder, "film-line-mistyped", 1).1,
        ),
        (
            "film-line-checkweigher",
            example(&folder, "film-line-checkweigher", 1).1,
        ),
        ("late", made(&folder, "late", &undecided(), 1).1),
        ("widest", made(&folder, "widest", &widest(), 0).1),
        ("tallest", made(&folder, "tallest", &tallest(), 0).1),
        ("no-tasks", made(&folder, "no-tasks", none, 0).1),
        ("moved", moved_examples(&folder, NEW_DOSING, 1).1),
        (
            "moved-widest",
            made_moved(&folder, "moved-widest", [&widest(), &tallest()], 1).1,
        ),
        (
            "moved-none",
            made_moved(&folder, "moved-none", [none, &other_grain()], 1).1,
        ),
        (
            "one-word",
            made(&folder, "one-word", &"x".repeat(5_000), 1).1,
        ),
    ];
    let looks = include_str!("looks.js");
    let mut frames = String::new();
    let mut expected = Vec::new();
    for (name, page) in &pages {
        // the page's own policy forbids scripts
        let (before, behind) = page.split_once("<meta http-equiv").unwrap();
        let (_, behind) = behind.split_once('\n').unwrap();
        let copy = format!("{before}<script>{looks}</script>\n{behind}");
        fs::write(folder.join(format!("{name}-looked-at.html")), copy).unwrap();
        for width in [320, 360, 860, 861, 1100] {
            let _ = writeln!(
                frames,
                "<iframe width=\"{width}\" height=\"800\" src=\"{name}-looked-at.html\"></iframe>"
            );
            let (bars, curves) = (bars(page), curves(page));
            expected.push(format!("{name} {width}: {bars} bars, {curves} curves"));
        }
    }
    let all = format!(
        "<!DOCTYPE html>\n<pre></pre>\n<script>\naddEventListener('message', told => \
         document.querySelector('pre').append(told.data + '\\n'))\n</script>\n{frames}"
    );
    let path = folder.join("all.html");
    fs::write(&path, all).unwrap();
    let waits = ["--dump-dom", "--virtual-time-budget=20000"];
    let tree = text(&chromium("page-widths-profile", &waits, &path));
    let told = tree.split("<pre>").nth(1).unwrap();
    let told = told.split("</pre>").next().unwrap();
    let mut told: Vec<&str> = told.trim_end().split('\n').collect();
    told.sort_unstable();
    expected.sort_unstable();
    assert_eq!(told, expected);
    picture(&folder.join("film-line.html"), "desk.png", "1100,1500");
    let moved = format!("{}.html", NEW_DOSING.join("-to-"));
    picture(&folder.join(moved), "moved.png", "1200,2300");
    let phone = "<!DOCTYPE html>\n<body style=\"margin: 0\"><iframe width=\"360\" height=\"1500\" \
                 style=\"border: 0\" src=\"film-line.html\"></iframe>";
    fs::write(folder.join("phone.html"), phone).unwrap();
    picture(&folder.join("phone.html"), "phone.png", "500,1500");
    for name in ["film-line-checkweigher", "late"] {
        let (page, shown) = (format!("{name}.html"), format!("{name}.png"));
        picture(&folder.join(page), &shown, "1100,1500");
    }
}

/// What the examples of `diff` are called.
const NEW_DOSING: [&str; 2] = ["film-line", "film-line-new-dosing"];

/// The sheet with the longest names and figures, and another grain, so that its splits are others.
fn other_grain() -> String {
    widest().replacen("machine\t16\t1\n", "machine\t16\t7\n", 1)
}

/// A sheet with no room, whose last core would be undecided by much: all numbers are long.
fn undecided() -> String {
    "machine\t1\t1\ncost\t100000\t0\t0\t0\t0\t0\t0\t0\t0\npart\tp\t1\t1\t1\t1000000\t100000\t0\n\
     fit\ttask-00-sealing-jaw-cros\tp\n"
        .to_owned()
}

/// A word on paper.
struct Word {
    text: String,
    left: f64,
    top: f64,
    right: f64,
    bottom: f64,
}

/// The words of each page of a PDF, and the page's size, by Debian's poppler-utils.
fn words(pdf: &Path) -> Vec<(f64, f64, Vec<Word>)> {
    let output = Command::new("pdftotext")
        .arg("-bbox")
        .args([pdf.as_os_str(), "-".as_ref()])
        .output()
        .expect("pdftotext runs; it is a part of Debian's poppler-utils");
    assert!(output.status.success());
    let told = text(&output.stdout);
    let number = |line: &str, name: &str| -> f64 {
        let behind = line.split(&format!("{name}=\"")).nth(1).unwrap();
        behind.split('"').next().unwrap().parse().unwrap()
    };
    let page = |page: &str| {
        let words = page.split("<word ").skip(1).map(|word| Word {
            text: word[word.find('>').unwrap() + 1..word.find("</word>").unwrap()].to_owned(),
            left: number(word, "xMin"),
            top: number(word, "yMin"),
            right: number(word, "xMax"),
            bottom: number(word, "yMax"),
        });
        (
            number(page, "width"),
            number(page, "height"),
            words.collect(),
        )
    };
    told.split("<page ").skip(1).map(page).collect()
}

/// The words of each page of a report on paper of that size. All are inside the margins and large enough.
fn printed(folder: &Path, name: &str, page: &str, size: &str) -> Vec<Vec<Word>> {
    let copy = folder.join(format!("{name}-{size}.html"));
    let sized = page.replacen("@page {", &format!("@page {{ size: {size};"), 1);
    assert_ne!(sized, page);
    fs::write(&copy, sized).unwrap();
    let pdf = copy.with_extension("pdf");
    let option = format!("--print-to-pdf={}", pdf.display());
    let options = ["--no-pdf-header-footer", &option];
    // tests run side by side, and a browser has its profile for itself
    let profile = format!("{}-profile", folder.file_name().unwrap().to_string_lossy());
    chromium(&profile, &options, &copy);
    let pages = words(&pdf);
    println!("{}: {} pages", pdf.display(), pages.len());
    let look = |(at, (width, height, words)): (usize, (f64, f64, Vec<Word>))| {
        let place = format!("{name} {size}, page {}", at + 1);
        assert_eq!(width < 600.0, size == "A4", "{place}");
        assert!(words.len() > 10, "{place} is almost empty");
        assert_legible(&words, width, height, &place);
        words
    };
    pages.into_iter().enumerate().map(look).collect()
}

/// On paper of both sizes every task is there, and on each page that has bars there is an axis above them.
#[test]
fn on_paper() {
    let folder = folder("page-paper");
    for (name, pages_with_bars, page) in [
        ("film-line", 1, example(&folder, "film-line", 0).1),
        ("widest", 3, made(&folder, "widest", &widest(), 0).1),
        ("tallest", 2, made(&folder, "tallest", &tallest(), 0).1),
    ] {
        for size in ["A4", "letter"] {
            let pages = printed(&folder, name, &page, size);
            let place = format!("{name} {size}");
            let bars = |words: &&Vec<Word>| has_bars_below_an_axis(words, &place);
            let with_bars = pages.iter().filter(bars).count();
            assert!(with_bars >= pages_with_bars, "{place}");
            let most = 12 + with_bars + figures(&page) / 3;
            assert!(pages.len() < most, "{place}: {} pages", pages.len());
            for task in tasks(&page) {
                let said = pages.iter().flatten();
                let said = said.filter(|word| word.text.trim_end_matches(',') == task);
                let (said, bars) = (said.count(), drawings(&page));
                assert!(said > bars, "{place}: {said} times {task}");
            }
        }
    }
}

/// What moved on paper of both sizes: each core of a plan stands beside that of the other, and each task
/// that moved is in the table too.
#[test]
fn what_moved_on_paper() {
    let folder = folder("page-paper-moved");
    let widest = [&widest()[..], &other_grain()];
    for (name, page) in [
        ("moved", moved_examples(&folder, NEW_DOSING, 1).1),
        (
            "moved-widest",
            made_moved(&folder, "moved-widest", widest, 1).1,
        ),
    ] {
        for size in ["A4", "letter"] {
            let pages = printed(&folder, name, &page, size);
            let place = format!("{name} {size}");
            for words in &pages {
                has_bars_below_an_axis(words, &place);
                let titles: Vec<&Word> = (words.windows(3))
                    .filter(|three| {
                        three[0].text == "Core" && ["was", "now"].contains(&&*three[2].text)
                    })
                    .map(|three| &three[2])
                    .collect();
                assert_eq!(titles.len() % 2, 0, "{place}");
                for was in titles.iter().filter(|title| title.text == "was") {
                    let beside = |now: &&&Word| now.text == "now" && now.left > was.right;
                    let level = |now: &&&Word| (now.top - was.top).abs() < 1.0;
                    assert!(
                        titles.iter().filter(beside).any(|now| level(&now)),
                        "{place}"
                    );
                }
            }
            let moved = page.matches("<tr class=\"moved\">").count();
            let signs = pages.iter().flatten().filter(|word| word.text == "≠");
            assert_eq!(signs.count(), moved + 1, "{place}: and one in the key");
        }
    }
}

/// A refusal for want of room on paper: the drawing stands on one page with its words and its numbers.
#[test]
fn no_room_on_paper() {
    let folder = folder("page-paper-no-room");
    let (_, page) = example(&folder, "film-line-checkweigher", 1);
    for size in ["A4", "letter"] {
        let pages = printed(&folder, "film-line-checkweigher", &page, size);
        let on = |word: &str| {
            let has = |words: &Vec<Word>| words.iter().any(|on| on.text == word);
            pages.iter().position(has).expect(word)
        };
        assert_eq!([on("Most"), on("50000"), on("many")], [on("52829:"); 3]);
    }
}

/// All words are inside the margins, and large enough.
fn assert_legible(words: &[Word], width: f64, height: f64, place: &str) {
    // a word that just fills its line was seen 0.6 points over the margin
    let margin = 72.0 / 25.4 * 14.0 - 1.0;
    for word in words {
        let beside = word.left < margin || word.right > width - margin;
        let above = word.top < margin || word.bottom > height - margin;
        assert!(!beside && !above, "{place}: {}", word.text);
        assert!(word.bottom - word.top > 6.0, "{place}: {}", word.text);
    }
}

/// Whether a printed page has bars, which are told by `420 in 1000, charged 485` behind them. An axis
/// is above them then.
fn has_bars_below_an_axis(words: &[Word], place: &str) -> bool {
    let bar = words
        .windows(2)
        .find(|two| two[0].text.ends_with(',') && two[1].text == "charged");
    let axis = words.iter().find(|word| word.text == "release");
    if let Some(bar) = bar {
        assert!(axis.expect(place).bottom < bar[0].top, "{place}");
    }
    bar.is_some()
}

/// The tasks of a page, by its table of them.
fn tasks(page: &str) -> impl Iterator<Item = &str> {
    let behind = page.split("<h2>Tasks ").nth(1).unwrap();
    let table = behind.split("<h2>").next().unwrap();
    let rows = table.split("<td class=\"name\">").skip(1);
    rows.map(|row| row.split('<').next().unwrap())
}
