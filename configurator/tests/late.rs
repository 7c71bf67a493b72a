//! Last pieces wake later (document 02, E2). Without costs every stated answer is what it was before;
//! with them a last piece is late by four of the nine constants, and every other piece by its task's
//! jitter.

#![warn(clippy::all, clippy::pedantic)]

mod common;

use std::collections::BTreeMap;
use std::fs;

use common::listings::{shown, stated, Tally};
use configurator::plan;
use inputs::sheets::{SheetDraw, LONG};
use inputs::{bytes, cases, rounds, Random};
use plain::verdict::Way;
use sha2::{Digest, Sha256};

/// The second line of a sheet without costs.
const NO_COSTS: &str = "cost\t0\t0\t0\t0\t0\t0\t0\t0\t0";

/// The stated answers without costs, as they were before E2: each case's name and its `.out` file.
const BEFORE: &str = "ca4b8daa6231fbad49757bc3b55287d0f753905fc047ed4b90aa6bdc12c6075c";

/// The stated answers of sheets without costs are byte by byte those of before, and so are the
/// library's. What the desk answers is held to the same files by `desk.rs`.
#[test]
fn without_costs_as_before() {
    let mut digest = Sha256::new();
    let mut counts = BTreeMap::new();
    let mut tally = Tally::default();
    for folder in ["plan", "desk", "special"] {
        let scripts = cases(folder, ".script");
        for case in cases(folder, ".sheet") {
            let sheet = bytes(folder, &format!("{case}.sheet"));
            let free = shown(&sheet).lines().nth(1) == Some(NO_COSTS);
            if !free || case.ends_with("-e2") {
                continue;
            }
            let out = bytes(folder, &format!("{case}.out"));
            digest.update(format!("{folder}/{case}\n"));
            digest.update(&out);
            *counts.entry(folder).or_insert(0) += 1;
            if !scripts.contains(&case) {
                tally.stated(&sheet, &stated(out), &case);
            }
        }
    }
    println!("{counts:?}; of the library {tally}");
    assert_eq!(format!("{:x}", digest.finalize()), BEFORE);
    assert_eq!((counts["plan"], counts["desk"]), (74, 33));
    assert!(tally.splits > 50);
}

/// The nine costs of a sheet, by its text.
fn costs(sheet: &str) -> [u64; 9] {
    let line = sheet.lines().nth(1).unwrap();
    let numbers = line.split('\t').skip(1);
    let costs: Vec<u64> = numbers.map(|number| number.parse().unwrap()).collect();
    costs.try_into().unwrap()
}

/// The jitter of each task, by its name.
fn jitters(sheet: &str) -> BTreeMap<&str, &str> {
    let fields: Vec<Vec<&str>> = sheet.lines().map(|l| l.split('\t').collect()).collect();
    let of = |word| fields.iter().filter(move |line| line[0] == word);
    let parts: BTreeMap<&str, &str> = of("part").map(|line| (line[1], line[5])).collect();
    of("fit").map(|line| (line[1], parts[line[2]])).collect()
}

/// Holds each piece's jitter in a listing to the sheet. Gives back how many last pieces there are, and
/// the jitter that each of them has.
fn held(sheet: &str, listing: &str) -> (u64, u64) {
    let [relo, _, tseto, ipb, _, _, _, _, pi] = costs(sheet);
    let late = pi + ipb + relo + tseto;
    let tasks = jitters(sheet);
    let mut lasts = 0;
    for line in listing.lines().skip(1) {
        let fields: Vec<&str> = line.split('\t').collect();
        let (task, kind, jitter) = (fields[2], fields[3], fields[6]);
        if kind == "last" {
            assert_eq!(jitter, late.to_string(), "{line}: {sheet}");
            lasts += 1;
        } else {
            assert_eq!(jitter, tasks[task], "{line}: {sheet}");
        }
    }
    (lasts, late)
}

/// A sheet whose last piece is late by more than any one constant can be.
const LATE: &str = "machine\t2\t10000
cost\t100000\t0\t10000\t10000\t0\t0\t0\t0\t100000
part\ta\t500000\t1000000\t1000000\t0\t0\t0
part\tb\t400000\t1000000\t1000000\t0\t0\t0
fit\tpress\ta
fit\tfeed\tb
";

/// Random sheets with costs, small and large, and one whose last piece is late by 220,000: the jitters
/// that the library lists are those that the sheet says, and the listing is the oracle's.
#[test]
fn jitters_by_the_sheet() {
    let mut random = Random::for_test();
    let mut tally = Tally::default();
    let mut lasts = 0;
    let mut most = 0;
    let mut compare = |sheet: &[u8]| {
        if let Ok(listing) = tally.sheet(sheet, Way::Stretches) {
            let (some, late) = held(&shown(sheet), &shown(&listing));
            lasts += some;
            most = most.max(if some > 0 { late } else { 0 });
        }
    };
    let large = (SheetDraw::new(8, 1_000_000, 60_000, 100_000), 10_000);
    for (draw, grain) in LONG.into_iter().chain([large; 3]) {
        for _ in 0..rounds(150) {
            compare(&draw.with_grain(grain, &mut random));
        }
    }
    compare(LATE.as_bytes());
    println!("{tally}; {lasts} last pieces, late by up to {most}");
    assert!(lasts > 300 && (220_000..=400_000).contains(&most));
}

/// One tick more of one constant makes the last piece of the film line later by one, if it is `RelO`,
/// `TsetO`, `IpB` or π, and not, if it is another.
#[test]
fn each_constant() {
    let path = concat!(env!("CARGO_MANIFEST_DIR"), "/../examples/film-line.sheet");
    let sheet = fs::read_to_string(path).unwrap();
    let before = costs(&sheet);
    let line = |costs: &[u64]| {
        let numbers: Vec<String> = costs.iter().map(u64::to_string).collect();
        format!("cost\t{}", numbers.join("\t"))
    };
    for (place, counts) in [1, 0, 1, 1, 0, 0, 0, 0, 1].into_iter().enumerate() {
        let mut more = before;
        more[place] += 1;
        let sheet = sheet.replace(&line(&before), &line(&more));
        let listing = shown(&plan(sheet.as_bytes()).unwrap().unwrap());
        assert_eq!(held(&sheet, &listing), (1, 26 + counts), "constant {place}");
    }
}
