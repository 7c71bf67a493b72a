//! The library's listings against the oracle's on random sheets, whole and damaged, and on all small
//! damages of some.

#![warn(clippy::all, clippy::pedantic)]

mod common;

use std::cell::RefCell;

use common::listings::Tally;
use common::refusal;
use configurator::Refusal;
use inputs::sheets::{full_load, LONG, SHEET, SMALL};
use inputs::strategies::{self, smallest_failure};
use inputs::{rounds, Random};
use plain::listing;
use plain::verdict::Way;

/// No sheet breaks a rule, and more than one in so many is planned with a split, or has no room.
fn assert_often(tally: &Tally, one_in: u64) {
    let least = tally.compared() / one_in;
    assert!(tally.with_split > least && tally.refused[7] > least);
    assert_eq!(tally.accepted + tally.refused[7], tally.compared());
}

#[test]
fn whole_sheets() {
    let mut random = Random::for_test();
    let mut tally = Tally::default();
    for draw in SMALL {
        for _ in 0..rounds(1_500) {
            let _ = tally.sheet(&draw.sheet(&mut random), Way::EveryLength);
        }
    }
    println!("{tally}");
    assert_often(&tally, 20);
}

/// Loads near the most that the cores can take, without costs and with some.
#[test]
fn full_loads() {
    let mut random = Random::for_test();
    let mut tally = Tally::default();
    for (cost, each, way) in [(0, 1_500, Way::EveryLength), (2, 300, Way::Stretches)] {
        for _ in 0..rounds(each) {
            let _ = tally.sheet(&full_load(cost, &mut random), way);
        }
        println!("costs up to {cost}, the sum so far: {tally}");
    }
    assert_often(&tally, 5);
}

/// Times as a controller has them, with a grain that leaves the oracle few splits to try.
#[test]
fn long_times() {
    let mut random = Random::for_test();
    let mut tally = Tally::default();
    for (draw, grain) in LONG {
        for _ in 0..rounds(200) {
            let sheet = draw.with_grain(grain, &mut random);
            let _ = tally.sheet(&sheet, Way::Stretches);
        }
    }
    println!("{tally}");
    assert_often(&tally, 5);
}

/// Sheets whole and damaged; where the library and the oracle differ, a small one is told. Each
/// number of a refusal that a sheet of fewer than 16,385 bytes can have comes up.
#[test]
fn damaged_sheets() {
    let random = &mut Random::for_test();
    let tally = RefCell::new(Tally::default());
    for draw in SMALL {
        let sheets = strategies::damaged_sheets(draw);
        let failed = smallest_failure(&sheets, rounds(1_200), random, |sheet| {
            let sheet = sheet.bytes();
            let expected = listing::of_sheet(&sheet, Way::Stretches).map_err(refusal);
            tally.borrow_mut().compare(&sheet, &expected)
        });
        if let Some((why, sheet)) = failed {
            panic!("the smallest sheet found on which they differ:\n{sheet:?}\n{why}");
        }
    }
    let tally = tally.into_inner();
    println!("{tally}");
    assert!(tally.with_split > 30);
    assert!(tally.refused[1..=8].iter().all(|&times| times > 5));
    assert_eq!((tally.refused[0], &tally.refused[9..]), (0, &[0, 0][..]));
}

/// Cut at every place: only a cut at the end of a line from the second on may leave a sheet.
#[test]
fn cut_sheets() {
    let mut random = Random::for_test();
    let mut tally = Tally::default();
    for draw in SMALL {
        for _ in 0..10 {
            let sheet = draw.sheet(&mut random);
            for length in 0..=sheet.len() {
                let answer = tally.sheet(&sheet[..length], Way::Stretches);
                let whole_lines = length == 0 || sheet[length - 1] == b'\n';
                assert!(whole_lines || answer.map_err(Refusal::number) == Err(8));
            }
        }
    }
    println!("{tally}");
}

/// Document 01's sheet with each byte as every other, and with each dropped, doubled and swapped
/// with the next.
#[test]
fn every_byte_of_a_sheet() {
    let mut tally = Tally::default();
    let sheet = SHEET.as_bytes();
    for place in 0..sheet.len() {
        let mut changed = sheet.to_vec();
        for byte in 0..=255 {
            changed[place] = byte;
            let _ = tally.sheet(&changed, Way::EveryLength);
        }
        let (above, below) = sheet.split_at(place);
        let dropped = [above, &below[1..]].concat();
        let doubled = [above, &below[..1], below].concat();
        let mut swapped = sheet.to_vec();
        swapped.swap(place, (place + 1) % sheet.len());
        for sheet in [dropped, doubled, swapped] {
            let _ = tally.sheet(&sheet, Way::EveryLength);
        }
    }
    println!("{tally}");
    assert!(tally.accepted > 100);
}

/// Document 01's sheet with its lines in every order.
#[test]
fn every_order_of_lines() {
    let mut tally = Tally::default();
    let mut lines: Vec<&[u8]> = SHEET.as_bytes().split_inclusive(|&b| b == b'\n').collect();
    each_order(&mut lines, 0, &mut |lines| {
        let _ = tally.sheet(&lines.concat(), Way::EveryLength);
    });
    println!("{tally}");
    assert_eq!((tally.compared(), tally.accepted), (720, 6));
}

/// Calls `visit` with the lines in every order of those from the place on.
fn each_order(lines: &mut [&[u8]], from: usize, visit: &mut impl FnMut(&[&[u8]])) {
    if from == lines.len() {
        visit(lines);
    }
    for place in from..lines.len() {
        lines.swap(from, place);
        each_order(lines, from + 1, visit);
        lines.swap(from, place);
    }
}
