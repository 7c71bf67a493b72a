//! docs/SHEETS.md is true: its commands are run, what it shows is what they print, its sheets are the
//! examples, and its words are those of the table of fields, which the manual page has too. The commands
//! of docs/LISTINGS.md are run as well.

#![warn(clippy::all, clippy::pedantic)]

mod common;

use common::command::{desk, emulator, file, folder, root, spardimple, text, typed};
use configurator::command::fields::{Field, LINES, SHEET};
use configurator::command::new::EXAMPLE;
use configurator::forms::Text;
use configurator::quoted::{Sheet, COSTS, TIMES};
use configurator::Refusal;
use std::os::unix::fs::symlink;
use std::process::Command;

const PAGE: &str = "docs/SHEETS.md";

/// The code blocks of the page: what kind each is, and its text.
fn blocks(page: &str) -> Vec<(&str, &str)> {
    let parts: Vec<&str> = page.split("```").collect();
    assert_eq!(parts.len() % 2, 1, "a block is not closed");
    let blocks = parts.iter().skip(1).step_by(2);
    blocks
        .map(|block| block.split_once('\n').unwrap())
        .collect()
}

#[test]
fn every_command_prints_what_is_shown() {
    let run = run_all(PAGE, "sheets");
    assert!(run >= 15, "{run} commands");
    assert_eq!(run_all("docs/LISTINGS.md", "listings"), 6);
}

/// Every command of a page runs, in the page's order, in a folder with the examples. The block behind it
/// is what it prints, messages first; it is refused, or something moved, where that says so. The desk is
/// left out where it has not been built. How many commands were run.
fn run_all(page: &str, name: &str) -> usize {
    let folder = folder(name);
    symlink(root("examples"), folder.join("examples")).unwrap();
    let runner = emulator().unwrap_or_default();
    let page = file(page);
    let blocks = blocks(&page);
    let mut run = 0;
    for (at, (kind, commands)) in blocks.iter().enumerate() {
        assert!(["sh", "text", "sheet"].contains(kind), "{kind}: {commands}");
        assert_eq!(
            *kind == "sh",
            commands.contains("./spardimple"),
            "{commands}"
        );
        if *kind != "sh" || commands.contains(" desk ") && !desk().is_file() {
            continue;
        }
        let (behind, shown) = blocks[at + 1];
        assert_eq!(behind, "text", "{commands}");
        let done = Command::new("bash")
            .args(["-c", &commands.replace("./spardimple", &typed())])
            .current_dir(&folder)
            .env("SPARDIMPLE_DESK", desk())
            .env("SPARDIMPLE_EMULATOR", &runner)
            .output()
            .unwrap();
        let refused = shown.contains(": refused (") || shown.starts_with("noroom\t");
        let alike = shown.contains("nothing moved")
            || shown.starts_with("diff\t") && shown.lines().count() == 1;
        let moved = commands.contains("./spardimple diff ") && !alike;
        let status = i32::from(refused || moved);
        assert_eq!(done.status.code(), Some(status), "{commands}");
        let printed = text(&done.stderr) + &text(&done.stdout);
        assert_eq!(printed, shown, "{commands}");
        run += 1;
    }
    run
}

/// The first sheet of the page is that of `new`; the steps of the worked sheet make the film line.
#[test]
fn the_sheets_are_the_examples() {
    let page = file(PAGE);
    let sheets = blocks(&page)
        .into_iter()
        .filter(|(kind, _)| *kind == "sheet");
    let sheets: Vec<&str> = sheets.map(|(_, sheet)| sheet).collect();
    assert_eq!(sheets[0], EXAMPLE);
    assert_eq!(sheets[1..].concat(), file("examples/film-line.sheet"));
}

/// The machine's data lead to the parts as the steps say: a row for each part, C its longest run and a
/// tenth more, rounded up to the next ten.
#[test]
fn the_data_give_the_parts() {
    let (page, sheet) = (file(PAGE), file("examples/film-line.sheet"));
    let sheet = Sheet::parse(sheet.as_bytes()).unwrap();
    let table = page.split("| function |").nth(1).unwrap();
    let table = table.split("\n\n").next().unwrap();
    let rows: Vec<Vec<u64>> = (table.lines().skip(2))
        .map(|row| {
            let cells: Vec<&str> = row.split(" | ").skip(2).collect();
            let digits = |cell: &&str| {
                cell.chars()
                    .filter(char::is_ascii_digit)
                    .collect::<String>()
            };
            cells
                .iter()
                .map(|cell| digits(cell).parse().unwrap())
                .collect()
        })
        .collect();
    assert_eq!(rows.len(), sheet.parts.len());
    for (row, part) in rows.iter().zip(&sheet.parts) {
        let worst = (row[2] * 11 + 99) / 100 * 10;
        let times = [worst, row[1], row[0], row[3], row[4], row[5]];
        assert_eq!(
            times.map(|time| time.to_string()),
            part.times,
            "{}",
            part.name
        );
    }
}

/// What the page says about room: the film line's sum of C/T, and grains that give a plan or none.
#[test]
fn room_is_as_said() {
    let (page, bytes) = (file(PAGE), file("examples/film-line.sheet"));
    let sheet = Sheet::parse(bytes.as_bytes()).unwrap();
    let share = |task: &str| {
        let times = sheet.part_of(task).unwrap().times;
        let number = |at: usize| times[at].parse::<f64>().unwrap();
        number(0) / number(2)
    };
    let sum: f64 = sheet.fits.iter().map(|fit| share(fit.task)).sum();
    assert!(page.contains(&format!(
        "the film line has {sum:.2}, so it needs three cores"
    )));
    assert!(page.contains("a plan with grain 10 and with 150, and none with 100"));
    for (grain, number) in [("10", None), ("150", None), ("100", Some(7))] {
        let other = bytes.replacen("machine\t3\t10\n", &format!("machine\t3\t{grain}\n"), 1);
        let refusal = configurator::plan(other.as_bytes()).unwrap().err();
        assert_eq!(refusal.map(Refusal::number), number, "{grain}");
    }
}

/// The page and the manual page have the words of the table, in its order.
#[test]
fn one_table_of_words() {
    let page = file(PAGE);
    let manual = text(&spardimple(&["man"]).stdout).replace("\\-", "-");
    let (_, manual) = manual.split_once(".SH SHEETS\n").unwrap();
    let (manual, _) = manual.split_once("\n.SH ").unwrap();
    let (mut in_page, mut in_manual) = (page.as_str(), manual);
    let mut next = |on_page: String, in_man: String| {
        for (rest, words) in [(&mut in_page, on_page), (&mut in_manual, in_man)] {
            let behind = rest.split_once(words.as_str());
            *rest = behind.unwrap_or_else(|| panic!("{words} is missing")).1;
        }
    };
    let sentences = SHEET.join("\n");
    next(format!("\n\n{sentences}\n\n"), sentences);
    for line in &LINES {
        let (word, about) = (line.word, line.about.join("\n"));
        next(
            format!("\n### {word}\n\n{about}\n"),
            format!("\n.SS {word}\n{about}"),
        );
        for field in line.fields {
            let (name, words) = (field.name, field.sentences().join("\n"));
            next(
                format!("\n**{name}.**\n{words}\n"),
                format!("\n.TP\n.B {name}\n{words}"),
            );
        }
    }
}

/// One sentence a line: none goes on behind the end of another.
#[test]
fn one_sentence_a_line() {
    let pages = file(PAGE) + &file("docs/LISTINGS.md");
    for text in pages.split("```").step_by(2) {
        for line in text.lines().filter(|line| !line.starts_with('|')) {
            let line = line
                .trim_start()
                .trim_start_matches(|c: char| c.is_ascii_digit());
            let line = line.strip_prefix(". ").unwrap_or(line);
            assert!(!line.contains(". ") && !line.contains("? "), "{line}");
        }
    }
}

/// The table has the lines and the fields that a sheet has.
#[test]
fn the_table_has_every_field() {
    for (above, line) in LINES.iter().enumerate() {
        let mut forms = Text::Sheet.forms(above).iter();
        let form = forms.find(|form| form.word == line.word).unwrap();
        assert_eq!(line.fields.len() + 1, form.fields(), "{}", line.word);
        assert_eq!(line.many, above > 1, "{}", line.word);
    }
    let names = |at: usize| LINES[at].fields.iter().map(|field| field.name);
    assert!(names(1).eq(COSTS));
    assert!(names(2).skip(1).eq(TIMES));
}

/// Each text of the table is one sentence.
#[test]
fn each_text_is_a_sentence() {
    let about = LINES.iter().flat_map(|line| line.about).copied();
    let fields = LINES.iter().flat_map(|line| line.fields);
    let fields = fields.flat_map(Field::sentences);
    for text in SHEET.into_iter().chain(about).chain(fields) {
        assert!(text.ends_with('.') && !text.contains(". "), "{text}");
        let first = text.chars().next().unwrap();
        assert!(!first.is_lowercase(), "{text}");
    }
}
