//! The library's listings: the cases of `tests/data`, the examples, lent buffers of every length,
//! and sheets at their sizes.

#![warn(clippy::all, clippy::pedantic)]

mod common;

use std::fs;
use std::path::Path;

use common::listings::{shown, stated, Tally};
use configurator::{plan, plan_into, Listed, Refusal};
use inputs::sheets::SHEET;
use inputs::{bytes, cases};
use plain::verdict::Way;

/// The first two lines of a sheet that is good so far.
const HEAD: &str = "machine\t16\t1\ncost\t0\t0\t0\t0\t0\t0\t0\t0\t0\n";

#[test]
fn cases_with_stated_answers() {
    for (folder, least) in [("plan", 142), ("special", 3)] {
        let mut tally = Tally::default();
        for case in cases(folder, ".sheet") {
            if !cases(folder, ".script").contains(&case) {
                let sheet = bytes(folder, &format!("{case}.sheet"));
                let expected = stated(bytes(folder, &format!("{case}.out")));
                tally.stated(&sheet, &expected, &case);
            }
        }
        println!("{folder}: {tally}");
        assert!(tally.compared() >= least, "the cases are there");
    }
}

/// Where a case has a script, its `.out` file has the answers to the script, so the sheet's own
/// listing is the oracle's.
#[test]
fn sheets_of_the_scripts() {
    let mut tally = Tally::default();
    for folder in ["desk", "special"] {
        for case in cases(folder, ".script") {
            let sheet = bytes(folder, &format!("{case}.sheet"));
            let _ = tally.sheet(&sheet, Way::Stretches);
        }
    }
    println!("{tally}");
    assert!(tally.compared() >= 68, "the cases are there");
}

/// A file of the folder of examples.
fn example(file: &str) -> Vec<u8> {
    let folder = Path::new(env!("CARGO_MANIFEST_DIR")).join("../examples");
    fs::read(folder.join(file)).unwrap_or_else(|error| panic!("{file}: {error}"))
}

#[test]
fn examples() {
    let mut tally = Tally::default();
    for name in ["film-line", "case-packer", "labeller"] {
        let sheet = example(&format!("{name}.sheet"));
        let listing = tally.sheet(&sheet, Way::Stretches);
        let beside = example(&format!("{name}.listing"));
        assert_eq!(listing.as_deref().map(shown), Ok(shown(&beside)), "{name}");
    }
    let mistyped = tally.sheet(&example("film-line-mistyped.sheet"), Way::Stretches);
    assert_eq!(mistyped, Err(Refusal::new(5, 14)));
    println!("{tally}");
    assert_eq!((tally.accepted, tally.splits), (3, 3));
}

/// Asks for a listing in the midst of bytes that are watched, in a buffer of each length up to three
/// bytes more than the listing, or than these if it is refused. Gives back how many lengths.
fn every_buffer_length(sheet: &[u8], refused_up_to: usize) -> usize {
    const MARGIN: usize = 40;
    let answer = plan(sheet).unwrap();
    let needed = answer.as_ref().map_or(refused_up_to, Vec::len);
    let pattern: Vec<u8> = (0..needed + 2 * MARGIN)
        .map(|place| (place * 37 % 251).to_le_bytes()[0])
        .collect();
    for length in 0..=needed + 3 {
        let mut memory = pattern.clone();
        let listed = plan_into(sheet, &mut memory[MARGIN..MARGIN + length]).unwrap();
        let mut expected = pattern.clone();
        match &answer {
            Err(refusal) => assert_eq!(listed, Listed::Refused(*refusal), "{length}"),
            Ok(_) if length < needed => {
                let too_short = Refusal::new(10, u32::try_from(needed).unwrap());
                assert_eq!(listed, Listed::Refused(too_short), "{length}");
            }
            Ok(listing) => {
                assert_eq!(listed, Listed::Written(needed), "{length}");
                expected[MARGIN..MARGIN + needed].copy_from_slice(listing);
            }
        }
        assert!(memory == expected, "{length}: {}", shown(sheet));
    }
    needed + 4
}

/// Where the buffer is long enough it holds the listing and beyond it what it held; a shorter one is
/// 10 with the length needed. A refusal leaves every byte.
#[test]
fn buffers_of_every_length() {
    let mut lengths = 0;
    let accepted = [SHEET.as_bytes().to_vec(), HEAD.into(), long_sheet(64)]
        .into_iter()
        .chain(
            ["film-line", "case-packer", "labeller"].map(|name| example(&format!("{name}.sheet"))),
        )
        .chain(["hole", "withdraw7"].map(|name| bytes("special", &format!("{name}.sheet"))));
    for sheet in accepted {
        lengths += every_buffer_length(&sheet, 0);
    }
    let refused = [
        b"".to_vec(),
        vec![b','; 16_385],
        b"machine\t0\t1\n".to_vec(),
        SHEET.replace("machine\t2", "machine\t1").into_bytes(),
        example("film-line-mistyped.sheet"),
        bytes("special", "slow-search.sheet"),
    ];
    for sheet in refused {
        assert!(plan(&sheet).unwrap().is_err());
        lengths += every_buffer_length(&sheet, 300);
    }
    println!("{lengths} lengths compared");
}

/// A name of 24 bytes that ends in the number.
fn long_name(letter: char, number: usize) -> String {
    format!("{letter}{number:0>23}")
}

/// A sheet of 64 parts and that many tasks, with the longest names and long numbers. All but the
/// first part would fill a core. Every task has the first, four of which almost do.
fn long_sheet(tasks: usize) -> Vec<u8> {
    let part = |number| {
        let budget = if number == 0 { 249_000 } else { 1_000_000 };
        let name = long_name('P', number);
        format!("part\t{name}\t{budget}\t1000000\t1000000\t0\t0\t0\n")
    };
    let fit = |number| format!("fit\t{}\t{}\n", long_name('t', number), long_name('P', 0));
    let head = HEAD.replace("16\t1\n", "16\t1000\n");
    let parts: String = (0..64).map(part).collect();
    let fits: String = (0..tasks).map(fit).collect();
    (head + &parts + &fits).into_bytes()
}

/// Compares the library's answer with the oracle's, and both with what is expected.
fn expect(tally: &mut Tally, sheet: &[u8], expected: Result<usize, Refusal>) {
    let answer = tally.sheet(sheet, Way::Stretches);
    let lines = |listing: Vec<u8>| shown(&listing).lines().count();
    assert_eq!(answer.map(lines), expected, "{}", shown(sheet));
}

/// 64 parts and 64 tasks are planned, and 64 tasks and 15 splits are 79 pieces, the most there can
/// be. A 65th part or task is refused.
#[test]
fn as_many_as_may_be() {
    let mut tally = Tally::default();
    for (tasks, splits) in [(0, 0), (1, 0), (4, 0), (5, 1), (63, 15), (64, 15)] {
        expect(&mut tally, &long_sheet(tasks), Ok(1 + tasks + splits));
    }
    let refused_at = |number, line| Err(Refusal::new(number, line));
    expect(&mut tally, &long_sheet(65), refused_at(6, 2 + 64 + 65));
    let text = shown(&long_sheet(64));
    let part = "part\tp\t1\t1\t1\t0\t0\t0\n";
    let more_parts = text.replacen("fit", &format!("{part}fit"), 1);
    expect(&mut tally, more_parts.as_bytes(), refused_at(6, 2 + 65));
    let part_below = text + part;
    expect(
        &mut tally,
        part_below.as_bytes(),
        refused_at(8, 2 + 64 + 64 + 1),
    );
    println!("{tally}");
}

/// A sheet of 16,384 bytes is read, so its first bad line is what is refused; one byte more is 9,
/// whatever else is wrong. No sheet that long is without a bad line: 64 parts and 64 tasks with the
/// longest names and numbers have fewer bytes.
#[test]
fn as_long_as_may_be() {
    let mut tally = Tally::default();
    let filled = |text: &str, fill: &str, length: usize| {
        let mut text = text.as_bytes().to_vec();
        while text.len() < length {
            text.extend(fill.bytes());
        }
        text.truncate(length);
        text
    };
    let whole = shown(&long_sheet(64));
    assert!(whole.len() < 16_384);
    let one_more = format!("fit\tt\t{}\n", long_name('P', 0));
    let unknown_part = "fit\tabcdefghijklmnopqrstuvwx\tabcdefghijklmnopqrstuvwx\n";
    let bad: [(&str, &str, Refusal); 8] = [
        ("", ",", Refusal::new(8, 1)),
        ("", "\n", Refusal::new(8, 1)),
        ("machine\t17\t1\n", "\n", Refusal::new(1, 1)),
        ("machine\t16\t1\n", "\t", Refusal::new(8, 2)),
        (SHEET, "\n", Refusal::new(8, 7)),
        (SHEET, "fit\tpress\tdrv-a\n", Refusal::new(4, 7)),
        (SHEET, unknown_part, Refusal::new(5, 7)),
        (&whole, &one_more, Refusal::new(6, 131)),
    ];
    for (text, fill, refusal) in bad {
        for length in [16_383, 16_384] {
            expect(&mut tally, &filled(text, fill, length), Err(refusal));
        }
        for length in [16_385, 16_386, 20_000, 1 << 20] {
            expect(
                &mut tally,
                &filled(text, fill, length),
                Err(Refusal::new(9, 0)),
            );
        }
    }
    println!("{tally}");
}

/// Names of 1 and of 24 bytes are planned, of 0 and of 25 refused with 8. Names are equal in all
/// their bytes: document 01's run example among them.
#[test]
fn names() {
    let mut tally = Tally::default();
    let of_24 = "abcdefghijklmnopqrstuvwx";
    let of_25 = "abcdefghijklmnopqrstuvwxy";
    let good: [(&str, &str, &str); 9] = [
        (of_24, "t", of_24),
        ("p", of_24, "p"),
        (of_24, of_24, of_24),
        ("a", "a", "a"),
        ("-", ".", "-"),
        ("0", "9", "0"),
        ("drv-a2", "drv-a", "drv-a2"),
        ("azAZ09-.", "zaZA90.-", "azAZ09-."),
        ("fit", "part", "fit"),
    ];
    for (part, task, fitted) in good {
        let sheet = named(part, task, fitted);
        let listing = format!("plan\t1\t1\npiece\t1\t{task}\twhole\t1\t2\t0\t1\n");
        let answer = tally.sheet(&sheet, Way::EveryLength);
        assert_eq!(answer, Ok(listing.into_bytes()), "{}", shown(&sheet));
    }
    let bad: [(&str, &str, &str, (u8, u32)); 17] = [
        (of_25, "t", of_25, (8, 3)),
        ("p", of_25, "p", (8, 4)),
        (of_24, "t", of_25, (8, 4)),
        ("", "t", "", (8, 3)),
        ("p", "", "p", (8, 4)),
        ("p", "t", "", (8, 4)),
        ("drv_a", "t", "drv_a", (8, 3)),
        ("drv a", "t", "drv a", (8, 3)),
        ("drv\0a", "t", "drv\0a", (8, 3)),
        ("drv-ä", "t", "drv-ä", (8, 3)),
        ("drv-a", "t", "drv-a2", (5, 4)),
        ("drv-a2", "t", "drv-a", (5, 4)),
        ("drv-a", "t", "drv-A", (5, 4)),
        ("drv-a", "t", "drv-b", (5, 4)),
        ("drv-a", "t", "erv-a", (5, 4)),
        (of_24, "t", &of_24[..23], (5, 4)),
        (&of_24[..23], "t", of_24, (5, 4)),
    ];
    for (part, task, fitted, (number, line)) in bad {
        let sheet = named(part, task, fitted);
        let answer = tally.sheet(&sheet, Way::EveryLength);
        assert_eq!(answer, Err(Refusal::new(number, line)), "{}", shown(&sheet));
    }
    println!("{tally}");
}

/// A sheet of one part and one task.
fn named(part: &str, task: &str, fitted: &str) -> Vec<u8> {
    format!("{HEAD}part\t{part}\t1\t2\t3\t0\t0\t0\nfit\t{task}\t{fitted}\n").into_bytes()
}
