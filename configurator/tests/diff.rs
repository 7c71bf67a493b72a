//! The library's two plans side by side: the cases of `tests/data`, others worked out by hand, names in byte
//! order, lent buffers of every length, and refusals in their order.

#![warn(clippy::all, clippy::pedantic)]

mod common;

use std::fmt::Write as _;

use common::diff::{Asked, Tally, Told};
use common::listings::{broken_sheets, shown, stated, text, GOOD};
use configurator::plan;
use inputs::{bytes, cases};
use plain::diff::Refused;
use plain::refusal::Refusal;
use plain::verdict::Way;

/// The library's answer is as expected: in buffers with room for just the text, for one byte less, for some
/// more, and for nothing.
fn expect(name: &str, asked: Asked, expected: &Told) {
    let needed = expected.as_ref().map_or(80, Vec::len);
    for length in [needed, needed - 1, needed + 60, 0] {
        if let Err(why) = asked.compare(expected, length) {
            panic!("{name}: {asked}\n{why}");
        }
    }
}

/// Two sheets side by side give these lines, by the library and by the oracle. In all of them blanks stand
/// for tabs.
fn expect_lines(name: &str, first: &str, second: &str, lines: &str) {
    let (first, second, lines) = (text(first), text(second), text(lines));
    let asked = Asked(&first, &second);
    let oracle = asked.oracle(Way::EveryLength);
    assert_eq!(
        oracle.map(|told| shown(&told)),
        Ok(shown(&lines)),
        "{name}, oracle"
    );
    expect(name, asked, &Ok(lines));
}

/// A sheet's lines: two cores without costs, and these.
fn free(lines: &str) -> String {
    format!("machine 2 1\ncost 0 0 0 0 0 0 0 0 0\n{lines}")
}

/// Document 01's sheet with tasks of these names.
fn drives(names: &[&str]) -> String {
    let mut lines = free("part drv-a 6 10 10 0 0 1");
    for name in names {
        let _ = write!(lines, "\nfit {name} drv-a");
    }
    lines
}

/// Document 01's sheet. Press is whole on core 1, feed is split, weld is whole on core 2.
fn three() -> String {
    drives(&["press", "feed", "weld"])
}

#[test]
fn cases_with_stated_answers() {
    let mut tally = Tally::default();
    for case in cases("diff", ".out") {
        let file = |ending| bytes("diff", &format!("{case}.{ending}"));
        let told = Ok(file("out"));
        expect(&case, Asked(&file("a"), &file("b")), &told);
        tally.count(&told);
    }
    println!("{tally}");
    assert_eq!(tally.compared(), 36);
}

/// Each stated sheet with itself is the header alone, or its refusal; behind another it is the second's.
#[test]
fn a_sheet_with_itself() {
    expect_lines("document 01's", &three(), &three(), "diff 3 3");
    let mut tally = Tally::default();
    for case in cases("plan", ".sheet") {
        let sheet = bytes("plan", &format!("{case}.sheet"));
        let told = match stated(bytes("plan", &format!("{case}.out"))) {
            Ok(listing) => {
                let tasks = shown(&listing).split('\t').nth(1).unwrap().to_owned();
                Ok(format!("diff\t{tasks}\t{tasks}\n").into_bytes())
            }
            Err(refusal) => {
                let refusal = Refusal::new(refusal.number(), refusal.carries());
                let second = Err(Refused::Second(refusal));
                Asked(GOOD.as_bytes(), &sheet).compare(&second, 80).unwrap();
                tally.count(&second);
                Err(Refused::First(refusal))
            }
        };
        Asked(&sheet, &sheet).compare(&told, 20).unwrap();
        tally.count(&told);
    }
    println!("{tally}");
    assert_eq!(tally.equal, tally.told);
    assert!(tally.equal > 50 && tally.refused[1].iter().sum::<u64>() > 50);
}

/// Where parts and tasks come in another order, the plan may be the same, or some tasks change places.
#[test]
fn another_order() {
    let parts = [
        "part a 7 10 10 0 0 1",
        "part b 6 10 10 0 0 2",
        "part c 5 10 10 0 0 3",
    ];
    let fits = ["fit one a", "fit two b", "fit three c"];
    let first = free(&[parts, fits].concat().join("\n"));
    for [x, y, z] in [
        [0, 1, 2],
        [0, 2, 1],
        [1, 0, 2],
        [1, 2, 0],
        [2, 0, 1],
        [2, 1, 0],
    ] {
        let lines = [parts[z], parts[x], parts[y], fits[x], fits[y], fits[z]];
        let second = free(&lines.join("\n"));
        expect_lines("greater density first", &first, &second, "diff 3 3");
    }
    expect_lines(
        "equal densities in their order",
        &three(),
        &drives(&["weld", "feed", "press"]),
        "diff 3 3
        was press 1 whole 6 10 10 0 0 1
        now press 2 whole 6 10 10 0 0 1
        was weld 2 whole 6 10 10 0 0 1
        now weld 1 whole 6 10 10 0 0 1",
    );
    println!("7 compared");
}

/// Where costs alone differ, so do charged times, which don't count; only pieces that differ are shown.
#[test]
fn other_costs() {
    let one_core = free("part a 2 10 10 0 0 0\nfit one a\nfit two a");
    let charged = one_core.replace("cost 0 0", "cost 0 1");
    let listings = [&one_core, &charged].map(|sheet| plan(&text(sheet)).unwrap().unwrap());
    assert_ne!(listings[0], listings[1]);
    expect_lines("charged times", &one_core, &charged, "diff 2 2");
    // a last piece is late by π; of a task that is shown, the equal first piece is shown too
    let tenfold = |sheet: &str| sheet.replace(" 6 10 10", " 60 100 100");
    let slow_clock = three().replace("0 0\npart", "0 1\npart");
    expect_lines(
        "a last piece's jitter",
        &tenfold(&three()),
        &tenfold(&slow_clock),
        "diff 3 3
        was feed 1 first 40 40 100 0 0 1
        was feed 2 last 20 60 100 0 0 1
        now feed 1 first 40 40 100 0 0 1
        now feed 2 last 20 60 100 1 0 1",
    );
    println!("2 compared");
}

/// One number of a part changes: each task with that part is shown, and no other.
#[test]
fn a_changed_part() {
    let names = "part a 2 10 10 0 0 0\npart b 1 20 20 0 0 0\nfit one a\nfit two b\nfit three a";
    let was = [2, 10, 10, 0, 0, 0];
    for (place, number) in [3, 9, 11, 1, 1, 1].into_iter().enumerate() {
        let mut now = was;
        now[place] = number;
        let [was, now] = [was, now].map(|numbers| numbers.map(|n| n.to_string()).join(" "));
        let changed = names.replace(&was, &now);
        let mut lines = "diff 3 3".to_owned();
        for task in ["one", "three"] {
            let _ = write!(
                lines,
                "\nwas {task} 1 whole {was}\nnow {task} 1 whole {now}"
            );
        }
        expect_lines("one number", &free(names), &free(&changed), &lines);
    }
    println!("6 compared");
}

/// A renamed task goes under one name and comes under the other.
#[test]
fn a_renamed_task() {
    expect_lines(
        "press is lift",
        &three(),
        &drives(&["lift", "feed", "weld"]),
        "diff 3 3
        only2 lift 1 whole 6 10 10 0 0 1
        only1 press 1 whole 6 10 10 0 0 1",
    );
    expect_lines(
        "feed is Feed",
        &three(),
        &drives(&["press", "Feed", "weld"]),
        "diff 3 3
        only2 Feed 1 first 4 4 10 0 0 1
        only2 Feed 2 last 2 6 10 0 0 1
        only1 feed 1 first 4 4 10 0 0 1
        only1 feed 2 last 2 6 10 0 0 1",
    );
    println!("2 compared");
}

/// Names as they are printed: hyphen, full stop, digits, upper case, lower case; a name comes before those
/// that it begins, and the longest differ in their last byte.
const NAMES: [&str; 26] = [
    "-",
    "--",
    "-.",
    ".",
    ".-",
    "0",
    "00",
    "1",
    "10",
    "2",
    "9",
    "A",
    "Z",
    "Zz",
    "a",
    "a-",
    "a.",
    "a0",
    "aA",
    "aa",
    "drv-A",
    "drv-a",
    "drv-a2",
    "drv-b",
    "zzzzzzzzzzzzzzzzzzzzzzzY",
    "zzzzzzzzzzzzzzzzzzzzzzzy",
];

/// The names come in byte order, whichever order the tasks have and whichever plan they are in.
#[test]
fn names_in_byte_order() {
    assert!((1..NAMES.len()).all(|place| NAMES[place - 1].as_bytes() < NAMES[place].as_bytes()));
    let parts = "part a 1 500 500 0 0 0\npart b 2 1000 1000 0 0 0";
    let fits = |fitted: &dyn Fn(usize) -> Option<char>| {
        let mixed = (0..NAMES.len()).map(|place| place * 7 % NAMES.len());
        let fit = |place| Some(format!("\nfit {} {}", NAMES[place], fitted(place)?));
        free(parts) + &mixed.filter_map(fit).collect::<String>()
    };
    let (a, b) = ("1 whole 1 500 500 0 0 0", "1 whole 2 1000 1000 0 0 0");
    let all = |word: &str, piece: &str| -> String {
        let line = |name| format!("\n{word} {name} {piece}");
        NAMES.iter().map(line).collect()
    };
    let (full, none) = (fits(&|_| Some('a')), free(parts));
    expect_lines(
        "all go",
        &full,
        &none,
        &format!("diff 26 0{}", all("only1", a)),
    );
    expect_lines(
        "all come",
        &none,
        &full,
        &format!("diff 0 26{}", all("only2", a)),
    );
    // of three names the first goes, the second comes, and the third gets another part
    let first = fits(&|place| (place % 3 != 1).then_some('a'));
    let second = fits(&|place| [None, Some('a'), Some('b')][place % 3]);
    let mut lines = "diff 17 17".to_owned();
    for (place, name) in NAMES.iter().enumerate() {
        let _ = match place % 3 {
            0 => write!(lines, "\nonly1 {name} {a}"),
            1 => write!(lines, "\nonly2 {name} {a}"),
            _ => write!(lines, "\nwas {name} {a}\nnow {name} {b}"),
        };
    }
    expect_lines("mixed", &first, &second, &lines);
    println!("3 compared");
}

/// Split tasks: in both plans, in one, and between cores of which one has two digits.
#[test]
fn split_tasks() {
    expect_lines(
        "another grain",
        &three(),
        &three().replace("machine 2 1", "machine 2 3"),
        "diff 3 3
        was feed 1 first 4 4 10 0 0 1
        was feed 2 last 2 6 10 0 0 1
        now feed 1 first 3 3 10 0 0 1
        now feed 2 last 3 7 10 0 0 1",
    );
    let (two, goes) = (
        drives(&["feed", "weld"]),
        "diff 3 2
        was feed 1 first 4 4 10 0 0 1
        was feed 2 last 2 6 10 0 0 1
        now feed 1 whole 6 10 10 0 0 1
        only1 press 1 whole 6 10 10 0 0 1
        was weld 2 whole 6 10 10 0 0 1
        now weld 1 first 4 4 10 0 0 1
        now weld 2 last 2 6 10 0 0 1",
    );
    expect_lines("press goes", &three(), &two, goes);
    expect_lines(
        "press comes",
        &two,
        &three(),
        "diff 2 3
        was feed 1 whole 6 10 10 0 0 1
        now feed 1 first 4 4 10 0 0 1
        now feed 2 last 2 6 10 0 0 1
        only2 press 1 whole 6 10 10 0 0 1
        was weld 1 first 4 4 10 0 0 1
        was weld 2 last 2 6 10 0 0 1
        now weld 2 whole 6 10 10 0 0 1",
    );
    let names: Vec<String> = (1..=15).map(|place| format!("drive-{place:02}")).collect();
    let mut names: Vec<&str> = names.iter().map(String::as_str).collect();
    let ten = drives(&names).replace("machine 2", "machine 10");
    names[13] = "turner";
    let renamed = drives(&names).replace("machine 2", "machine 10");
    expect_lines(
        "core 9 before core 10",
        &ten,
        &renamed,
        "diff 15 15
        only1 drive-14 9 first 4 4 10 0 0 1
        only1 drive-14 10 last 2 6 10 0 0 1
        only2 turner 9 first 4 4 10 0 0 1
        only2 turner 10 last 2 6 10 0 0 1",
    );
    println!("4 compared");
}

/// Sheets without tasks.
#[test]
fn empty_sheets() {
    let (none, parts) = (free(""), drives(&[]));
    let none = none.trim_end();
    for (first, second) in [
        (none, none),
        (none, &parts),
        (&parts, none),
        (&parts, &parts),
    ] {
        expect_lines("no tasks", first, second, "diff 0 0");
    }
    let pieces = [
        "feed 1 first 4 4 10 0 0 1",
        "feed 2 last 2 6 10 0 0 1",
        "press 1 whole 6 10 10 0 0 1",
        "weld 2 whole 6 10 10 0 0 1",
    ];
    let all = |word: &str| pieces.map(|piece| format!("\n{word} {piece}")).concat();
    let (come, go) = (all("only2"), all("only1"));
    expect_lines("all come", none, &three(), &format!("diff 0 3{come}"));
    expect_lines("all go", &three(), none, &format!("diff 3 0{go}"));
    println!("6 compared");
}

/// 64 tasks in 79 pieces, the most there can be, with the longest names; these begin with a letter. The
/// grain leaves the oracle few splits to try.
fn crowd(letter: char) -> String {
    let mut lines = free("part p 249000 1000000 1000000 0 0 100");
    for place in 1..=64 {
        let _ = write!(lines, "\nfit {letter}{place:023} p");
    }
    lines.replace("machine 2 1", "machine 16 1000")
}

/// 64 tasks a side: the same, one under another name, all with another period, and all under other names,
/// which is as many lines as there can be.
#[test]
fn as_many_as_may_be() {
    let one = crowd('t').replace("fit t00000000000000000000064", "fit T");
    let all = crowd('t').replace("1000000", "999999");
    for (second, count) in [(crowd('t'), 0), (one, 2), (all, 158), (crowd('T'), 158)] {
        let (first, second) = (text(&crowd('t')), text(&second));
        let asked = Asked(&first, &second);
        let told = asked.oracle(Way::Stretches);
        expect("64 tasks", asked, &told);
        let text = shown(&told.unwrap());
        assert!(text.starts_with("diff\t64\t64\n"));
        assert_eq!(text.lines().count(), 1 + count);
        println!("{} bytes", text.len());
    }
}

/// In each buffer length from none to some more than the text needs, the text and beyond it what the
/// buffer held, or 10; and a refusal leaves every byte.
#[test]
fn buffers_of_every_length() {
    let mut lengths = 0;
    let two = drives(&["feed", "weld"]);
    for (first, second) in [(three(), two), (three(), three()), (three(), String::new())] {
        let (first, second) = (text(&first), text(&second));
        let asked = Asked(&first, &second);
        let told = asked.oracle(Way::EveryLength);
        let needed = told.as_ref().map_or(200, Vec::len);
        for length in (0..=needed + 3).chain([needed + 5_000]) {
            if let Err(why) = asked.compare(&told, length) {
                panic!("{asked}\n{why}");
            }
            lengths += 1;
        }
    }
    println!("{lengths} lengths compared");
}

/// The first sheet's refusal comes before the second's, whatever their numbers, and both before 10. Each
/// number from 1 to 9 comes up on each side.
#[test]
fn refusal_order() {
    let stuck = format!("{GOOD}fit\tu\tp\n").into_bytes();
    let mut sheets: Vec<(Vec<u8>, Option<Refusal>)> =
        vec![(GOOD.into(), None), (stuck, Some(Refusal::new(7, 2)))];
    for (sheet, refusal) in broken_sheets() {
        let refusal = Refusal::new(refusal.number(), refusal.carries());
        sheets.push((sheet, Some(refusal)));
    }
    let mut tally = Tally::default();
    for (first, of_first) in &sheets {
        for (second, of_second) in &sheets {
            let told = match (of_first, of_second) {
                (Some(refusal), _) => Err(Refused::First(*refusal)),
                (None, Some(refusal)) => Err(Refused::Second(*refusal)),
                (None, None) => Ok(b"diff\t1\t1\n".to_vec()),
            };
            for length in [0, 9, 1_000] {
                if let Err(why) = Asked(first, second).compare(&told, length) {
                    panic!("{of_first:?}, {of_second:?}: {why}");
                }
            }
            tally.count(&told);
        }
    }
    println!("{tally}");
    assert_eq!((tally.compared(), tally.equal), (11 * 11, 1));
    assert!(tally
        .refused
        .iter()
        .all(|refused| refused[1..=9].iter().all(|&n| n > 0)));
}
