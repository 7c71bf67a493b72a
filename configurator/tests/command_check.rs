//! `check`: every bad line is told, and each message is an answer of the library.

#![warn(clippy::all, clippy::pedantic)]

mod common;

use common::command::{folder, program, spardimple, spardimple_fed, text};
use configurator::check::refusals;
use configurator::explain::Explained;
use configurator::plan;
use inputs::sheets::{damaged, SheetDraw, SHEET};
use inputs::Random;
use std::collections::BTreeSet;
use std::fs;

/// What the command says about a sheet on standard input.
fn said(sheet: &[u8]) -> (Option<i32>, String, String) {
    let ended = spardimple_fed(&["check", "-"], sheet);
    (
        ended.status.code(),
        text(&ended.stdout),
        text(&ended.stderr),
    )
}

/// The numbers and lines that are told.
fn told(sheet: &str) -> Vec<(u8, usize)> {
    let place = |why: &Explained| {
        let line = why.line.as_ref().map_or(0, |line| line.number);
        (why.refusal.number(), line)
    };
    refusals(sheet.as_bytes())
        .unwrap()
        .iter()
        .map(place)
        .collect()
}

#[test]
fn good_sheets() {
    let good = spardimple(&["check", "examples/film-line.sheet"]);
    assert_eq!(good.status.code(), Some(0));
    let sum = "examples/film-line.sheet: accepted: 11 tasks in 12 pieces on 3 cores\n";
    assert_eq!(text(&good.stdout), sum);
    assert!(good.stderr.is_empty());
    let none = said(b"machine\t1\t1\ncost\t0\t0\t0\t0\t0\t0\t0\t0\t0\n");
    let sum = "standard input: accepted: no tasks in no pieces on 1 core\n";
    assert_eq!(none, (Some(0), sum.to_owned(), String::new()));
}

/// The whole of what is said of a sheet with four bad lines.
#[test]
fn all_bad_lines() {
    let sheet = "machine\t2\t1
cost\t0\t0\t0\t0\t0\t0\t0\t0\t100001
part\tdrv-a\t6\t10\t10\t0\t0\t1
part drv-b 6 10 10 0 0 1
part\tdrv-c\t6\t5\t10\t0\t0\t1
fit\tpress\tdrv-c
fit\tfeed\tdrv-b
fit\tpress\tdrv-a
fit\tweld\tdrv-a
";
    let folder = folder("check");
    fs::write(folder.join("s.sheet"), sheet).unwrap();
    let ended = program()
        .args(["check", "s.sheet"])
        .current_dir(&folder)
        .output()
        .unwrap();
    assert_eq!(ended.status.code(), Some(1));
    assert_eq!(
        text(&ended.stdout),
        "s.sheet: 4 refusals; the first is the library's answer to the sheet, \
         each other its answer when all above it is mended\n"
    );
    assert_eq!(
        text(&ended.stderr),
        "s.sheet:2: refused (2): a cost must be at most 100,000
  cost⇥0⇥0⇥0⇥0⇥0⇥0⇥0⇥0⇥100001
                       ^^^^^^
  π is 100001 here
  to do: correct the `cost` line; its nine constants count ticks, as all times do
s.sheet:4: refused (8): not formed as it should be, or cut short
  part drv-b 6 10 10 0 0 1
      ^
  a space where one tab should be
  to do: `spardimple fmt s.sheet -o NEW` puts one tab between fields
s.sheet:5: refused (3): a time must be at most 1,000,000, a cache charge at most 100,000, and 1 ≤ C ≤ D ≤ T
  part⇥drv-c⇥6⇥5⇥10⇥0⇥0⇥1
             ^^^
  C is 6 here and D is 5
  to do: correct the times; where they are too long, take a longer tick for the whole sheet
s.sheet:8: refused (4): that name is already taken
  fit⇥press⇥drv-a
      ^^^^^
  line 6 has a task `press` already
  to do: give this one another name, or take the line away if it stands there twice
"
    );
}

/// The first message is `plan`'s, also where it has no line.
#[test]
fn the_first_is_the_librarys() {
    for path in [
        "examples/film-line-mistyped.sheet",
        "configurator/tests/data/special/slow-search.sheet",
        "examples/film-line.listing",
        "/dev/zero",
        "/dev/null",
    ] {
        let planned = text(&spardimple(&["plan", path]).stderr);
        let checked = spardimple(&["check", path]);
        assert_eq!(checked.status.code(), Some(1), "{path}");
        assert!(text(&checked.stderr).starts_with(&planned), "{path}");
    }
    let one = "examples/film-line-mistyped.sheet: 1 refusal, the library's answer to the sheet\n";
    let checked = spardimple(&["check", "examples/film-line-mistyped.sheet"]);
    assert_eq!(text(&checked.stdout), one);
    assert_eq!(spardimple(&["check", "none"]).status.code(), Some(3));
}

/// What stands in a whole file is told once, and what else is wrong in it beside that.
#[test]
fn whole_files() {
    let late = SHEET
        .replace("6\t10\t10", "60\t10\t10")
        .replace("weld\tdrv-a", "weld\tdrv");
    let expected = |first: &[(u8, usize)]| [first, &[(3, 3), (5, 6)]].concat();
    assert_eq!(told(&late), expected(&[]));
    assert_eq!(told(&late.replace('\n', "\r\n")), expected(&[(8, 1)]));
    assert_eq!(told(&late.replace('\n', "\r")), expected(&[(8, 1)]));
    assert_eq!(told(&late.replace('\t', "  ")), expected(&[(8, 1)]));
    assert_eq!(told(&late.replace('\n', "\t\t\n")), expected(&[(8, 1)]));
    assert_eq!(told(&format!("\u{feff}{late}")), expected(&[(8, 1)]));
    let both = format!("\u{feff}{}", late.replace('\n', "\r\n"));
    assert_eq!(told(&both), expected(&[(8, 1), (8, 1)]));
    let wide: Vec<u8> = late.bytes().flat_map(|byte| [byte, 0]).collect();
    let (status, out, err) = said(&wide);
    assert_eq!(status, Some(1));
    assert!(out.starts_with("standard input: 3 refusals; "), "{out}");
    let begins = [
        "standard input:1: refused (8)",
        "standard input:3: refused (3)",
        "standard input:6: refused (5)",
    ];
    let lines: Vec<&str> = err.lines().filter(|line| line.starts_with('s')).collect();
    assert!(
        lines
            .iter()
            .zip(begins)
            .all(|(line, begin)| line.starts_with(begin)),
        "{err}"
    );
    assert_eq!(lines.len(), 3);
}

/// One mistake has one message: what hangs on a bad line is looked at as if it were good.
#[test]
fn one_mistake_has_one_message() {
    let head = "machine\t2\t1\ncost\t0\t0\t0\t0\t0\t0\t0\t0\t0\n";
    let part = "part\tdrv\t1\t10\t10\t0\t0\t0\n";
    for (sheet, expected) in [
        // the head missing, doubled, in another order, or below another line
        (format!("{}{part}fit\ta\tdrv\n", &head[12..]), vec![(8, 1)]),
        (format!("{}{part}fit\ta\tdrv\n", &head[..12]), vec![(8, 2)]),
        (format!("{part}fit\ta\tdrv\n"), vec![(8, 1), (8, 1)]),
        (format!("a sheet\n{head}{part}"), vec![(8, 1)]),
        (format!("\n\n{head}\n{part}"), vec![(8, 1), (8, 2), (8, 5)]),
        (format!("{head}{head}{part}"), vec![(8, 3), (8, 4)]),
        (
            format!("mashine\t2\t1\n{}{part}", &head[12..]),
            vec![(8, 1)],
        ),
        (String::new(), vec![(8, 1)]),
        (head[..12].to_owned(), vec![(8, 2)]),
        // a part that is not formed, or below a fit, is there for those who fit it
        (
            format!("{head}part\tdrv\t1\t10\nfit\ta\tdrv\nfit\tb\tdrv\n"),
            vec![(8, 3)],
        ),
        (
            format!("{head}prat\tdrv\t1\t10\t10\t0\t0\t0\nfit\ta\tdrv\n"),
            vec![(8, 3)],
        ),
        (
            format!("{head}{part}fit\ta\tdrv\npart\tb\t1\t1\t1\t0\t0\t0\nfit\tc\tb\n"),
            vec![(8, 5)],
        ),
        // a task of a bad line keeps its name
        (
            format!("{head}{part}fit\ta\tnone\nfit\ta\tdrv\nfti\tb\tdrv\nfit\tb\tdrv\n"),
            vec![(5, 4), (4, 5), (8, 6), (4, 7)],
        ),
        // a line that is refused for two reasons is told once; mended, it is looked at again
        (
            format!("{head}{part}part\tdrv\t9\t1\t1\t0\t0\t0\n"),
            vec![(3, 4)],
        ),
        (
            format!("{head}{part}part drv 9 1 1 0 0 0\nfit\ta\tdrv\n"),
            vec![(8, 4), (3, 4)],
        ),
        // no newline at the end
        (
            format!("{head}{part}fit\ta\tdrv\nfit\ta\tdrv"),
            vec![(8, 5), (4, 5)],
        ),
    ] {
        assert_eq!(told(&sheet), expected, "{sheet}");
    }
    let many = |word: &str, count: usize| -> String {
        let line = |at| match word {
            "part" => format!("part\tp{at}\t1\t100\t100\t0\t0\t0\n"),
            _ => format!("fit\tt{at}\tp{}\n", at % 66),
        };
        (1..=count).map(line).collect()
    };
    let parts = format!("{head}{}", many("part", 66));
    assert_eq!(
        told(&format!("{parts}{}", many("fit", 65))),
        [(6, 67), (6, 68)]
    );
    let parts = format!("{head}{}", many("part", 64));
    let fits = many("fit", 64) + "fit\tu\tp1\nfit\tv\tp2\n";
    assert_eq!(told(&format!("{parts}{fits}")), [(6, 131), (6, 132)]);
}

/// A line broken by itself, and what it becomes.
fn broken(line: &str, last: bool, random: &mut Random) -> String {
    let mut fields: Vec<String> = line.split('\t').map(str::to_owned).collect();
    let (word, numbers) = (fields[0].clone(), if fields[0] == "part" { 2 } else { 1 });
    // at the last line a flaw would be in every line from there on, and told with those above
    match (random.between(0, if last { 4 } else { 8 }), word.as_str()) {
        (0, "machine") => fields[1] = String::from(random.pick(&["0", "17", "9999999"])),
        (0, "cost") => fields[5] = String::from("100001"),
        (0, "part") => fields[2] = String::from(random.pick(&["0", "1000001"])),
        (0, _) => fields[2] = String::from("nowhere"),
        (1, "fit") => fields[2] = String::from("no_where"),
        (1, _) => fields[numbers] = String::from(random.pick(&["01", "-1", "", "x", "12345678"])),
        (2, _) => {
            fields.pop();
        }
        (3, _) => fields.push("1".to_owned()),
        (4, _) => fields[0].push('x'),
        (5, _) => fields[0].make_ascii_uppercase(),
        (6, _) => fields.insert(1, String::new()),
        (7, _) => return format!(" {line}"),
        _ => return format!("{line}\r"),
    }
    fields.join("\t")
}

/// Lines that are broken each by itself are told, these and no others, in their order.
#[test]
fn exactly_the_broken_lines() {
    let mut random = Random::for_test();
    let draw = SheetDraw::new(8, 1_000, 3, 5);
    for _ in 0..2_000 {
        let good = String::from_utf8(draw.sheet(&mut random)).unwrap();
        let mut lines: Vec<String> = good.lines().map(str::to_owned).collect();
        let mut expected = BTreeSet::new();
        for _ in 0..random.between(1, 8) {
            expected.insert(random.place(lines.len()));
        }
        let last = lines.len() - 1;
        for &at in &expected {
            lines[at] = broken(&lines[at], at == last, &mut random);
        }
        let sheet = lines.join("\n") + "\n";
        let found: Vec<usize> = told(&sheet).iter().map(|(_, line)| line - 1).collect();
        let expected: Vec<usize> = expected.into_iter().collect();
        assert_eq!(found, expected, "{sheet}");
    }
}

/// Of any bytes something is told exactly if the library refuses them, its own answer first.
#[test]
fn any_bytes() {
    let mut random = Random::for_test();
    let draw = SheetDraw::new(4, 100, 2, 5);
    for count in 0..2_000 {
        let mut bytes = match count % 3 {
            0 => (0..random.place(300))
                .map(|_| random.pick(b"part\tfimachne\n01 9\r-. \xff\0"))
                .collect(),
            _ => draw.sheet(&mut random),
        };
        for _ in 0..random.between(0, 4) {
            bytes = damaged(&bytes, &mut random);
        }
        let told = refusals(&bytes).unwrap();
        let first = told.first().map(|first| first.refusal);
        assert_eq!(first, plan(&bytes).unwrap().err());
    }
}

/// The longest sheets with the most bad lines end too.
#[test]
fn the_most_bad_lines() {
    let head = "machine\t2\t1\ncost\t0\t0\t0\t0\t0\t0\t0\t0\t0\n";
    for line in [
        "x\n",
        "\n",
        "a\tb\tc\n",
        "part\t\t\t\t\t\t\t\n",
        "fit a b\r\n",
    ] {
        let count = (16_384 - head.len()) / line.len();
        let sheet = format!("{head}{}", line.repeat(count));
        let told = told(&sheet);
        assert_eq!(told[0], (8, 3), "{line:?}");
        let each = ["x\n", "\n", "a\tb\tc\n", "part\t\t\t\t\t\t\t\n"].contains(&line);
        assert!(!each || told.len() == count, "{line:?}: {}", told.len());
    }
}
