//! The benchmark's copy of the library's algorithms against the library, so that what it counts is
//! what the library does, and the length it shows against its own verdict and the oracle's too; and the next ideas, which must
//! give the same listings.

#![warn(clippy::all, clippy::pedantic)]

#[path = "../benches/counted.rs"]
mod counted;
#[allow(dead_code)] // the benchmark uses all of it
#[path = "../benches/sheets.rs"]
mod sheets;
#[allow(dead_code)] // the benchmark uses all of it
#[path = "../benches/tally.rs"]
mod tally;

use std::fmt::Write as _;

use configurator::{plan, why_records};
use counted::{Lean, Sought, Verdict};
use inputs::cores::{self, lent_costs, lent_records, Draw};
use inputs::sheets::{full_load, SheetDraw, SMALL};
use inputs::{bytes, cases, Random};
use plain::demand::Core;
use plain::verdict::Way;
use plain::why::Figures;
use tally::{Counts, Silent};

/// Plans a sheet by the copy, as it is and with the next ideas, and compares; gives the candidates
/// tried.
fn compare(sheet: &[u8]) -> usize {
    let shown = String::from_utf8_lossy(sheet);
    let expected = plan(sheet).unwrap();
    let mut lean = Lean::new(Counts::default());
    let listing = sheets::plan(sheet, &mut lean);
    let next = sheets::plan(sheet, &mut Lean::next(Silent));
    assert_eq!(listing, next, "{shown}");
    match (expected, listing) {
        (Ok(expected), Ok(listing)) => assert_eq!(listing, expected, "{shown}"),
        (Err(refusal), Err(0)) => assert_ne!(refusal.number(), 7, "{shown}"),
        (Err(refusal), Err(task)) => {
            assert_eq!(refusal.number(), 7, "{shown}");
            assert_eq!(refusal.carries() as usize, task, "{shown}");
        }
        (expected, listing) => panic!("{expected:?} is not {listing:?} for {shown}"),
    }
    lean.tally.candidates.len()
}

#[test]
fn cases_of_the_data() {
    let mut compared = 0;
    for folder in ["plan", "special", "desk"] {
        for case in cases(folder, ".sheet") {
            compare(&bytes(folder, &format!("{case}.sheet")));
            compared += 1;
        }
    }
    assert!(compared > 150, "the cases are there");
}

#[test]
fn random_sheets() {
    let mut random = Random::for_test();
    let mut splits = 0;
    let long = [
        SheetDraw::new(8, 4_000, 20, 50),
        SheetDraw::new(16, 1_000_000, 500, 20_000),
    ];
    for draw in SMALL[..4].iter().chain(&long) {
        for _ in 0..1_000 {
            splits += compare(&draw.sheet(&mut random));
        }
    }
    for cost in [0, 2, 9] {
        for _ in 0..1_000 {
            splits += compare(&full_load(cost, &mut random));
        }
    }
    println!("{splits} splits");
    assert!(splits > 3_000);
}

/// Blocking that is long beside the charges: the splits where the first piece's own blocking counts.
#[test]
fn long_blocking() {
    let mut random = Random::for_test();
    let mut splits = 0;
    for _ in 0..2_000 {
        let tasks = random.between(2, 5);
        let blocking = random.between(1, 60);
        let mut parts = String::new();
        let mut fits = String::new();
        for task in 0..tasks {
            let period = random.between(1, 150);
            let deadline = random.between(1, period);
            let budget = random.between(1, deadline);
            let jitter = random.pick(&[0, 0, 0, 1, 9]);
            let times = format!("{budget}\t{deadline}\t{period}\t{jitter}\t0\t0");
            let _ = writeln!(parts, "part\tp{task}\t{times}");
            let _ = writeln!(fits, "fit\tt{task}\tp{task}");
        }
        let costs = format!("{}\t0\t0\t{blocking}\t0\t0\t0\t0", random.pick(&[0, 0, 1]));
        let sheet = format!("machine\t3\t1\ncost\t{costs}\t0\n{parts}{fits}");
        splits += compare(sheet.as_bytes());
    }
    println!("{splits} splits");
    assert!(splits > 500);
}

/// Compares the length that is shown of a core: the copy's, the oracle's and the library's. Whether
/// it passes.
fn compare_shown(core: &Core, way: Way) -> bool {
    let (records, costs) = (lent_records(core), lent_costs(core));
    let (lanes, stall) = sheets::lanes(&records, &costs);
    let mut lean = Lean::new(Silent);
    let verdict = lean.judge(&lanes, stall);
    let (judged, word, length) = if lanes.is_empty() {
        (Verdict::Passes, "passes", 0)
    } else {
        match lean.show(&lanes, stall) {
            Some(Sought::Least(t, asked)) => {
                assert!(asked <= t, "{core:?}");
                (Verdict::Passes, "passes", t)
            }
            Some(Sought::Over(t, asked)) => {
                assert!(t < asked, "{core:?}");
                (Verdict::Overloaded(t), "overloaded", t)
            }
            None => (Verdict::Undecided, "undecided", 100_000_000),
        }
    };
    assert_eq!(verdict, judged, "{core:?}");
    let oracle = Figures::of(core, way).map_or(0, |figures| figures.length);
    assert_eq!(length, oracle, "{core:?}");
    let text = why_records(&records, &costs).unwrap().unwrap();
    let begins = format!("why\t{word}\t{length}\t");
    assert!(text.starts_with(begins.as_bytes()), "{begins} {core:?}");
    word == "passes"
}

#[test]
fn least_slacks() {
    let mut random = Random::for_test();
    let small = [
        Draw::new(7, 60, 0, 0),
        Draw::new(4, 40, 25, 2),
        Draw::new(5, 60, 220, 0),
        Draw::new(6, 200, 120, 6),
    ];
    let long = [
        Draw::new(79, 900, 10, 1),
        Draw::new(8, 50_000, 10, 100),
        Draw::new(10, 1_000_000, 5, 2_000),
    ];
    let mut passes = 0;
    for (draws, way, each) in [
        (&small[..], Way::EveryLength, 1_000),
        (&long, Way::Stretches, 200),
    ] {
        for draw in draws {
            for _ in 0..each {
                passes += u64::from(compare_shown(&draw.core(&mut random), way));
            }
        }
    }
    for _ in 0..1_000 {
        let core = cores::full_load(&mut random);
        passes += u64::from(compare_shown(&core, Way::Stretches));
    }
    println!("{passes} pass");
    assert!(passes > 1_500);
}
