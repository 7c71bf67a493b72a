//! The library's two plans side by side against the oracle's: on random pairs of sheets, whole and damaged,
//! in buffers of lengths by chance.

#![warn(clippy::all, clippy::pedantic)]

mod common;

use std::cell::RefCell;

use common::diff::{Asked, Tally};
use inputs::pairs::{pairs, ROOMY};
use inputs::sheets::{SheetDraw, LONG, SHEET};
use inputs::strategies::smallest_failure;
use inputs::{rounds, Random};
use plain::verdict::Way;

/// Compares that many random pairs of each draw, with a grain of its own or not; where the library and the
/// oracle differ, a small one is told.
fn compare(draws: &[(SheetDraw, Option<u64>)], each: u64) -> Tally {
    let random = &mut Random::for_test();
    let tally = RefCell::new(Tally::default());
    for (draw, grain) in draws {
        let by_chance = RefCell::new(Random::new(random.any()));
        let failed = smallest_failure(&pairs(*draw, *grain), rounds(each), random, |pair| {
            let ([first, second], by_chance) = (pair.bytes(), &mut by_chance.borrow_mut());
            let asked = Asked(&first, &second);
            tally.borrow_mut().asked(asked, Way::Stretches, by_chance)
        });
        if let Some((why, pair)) = failed {
            panic!("the smallest pair found on which they differ:\n{pair:?}\n{why}");
        }
    }
    let tally = tally.into_inner();
    println!("{tally}");
    tally
}

/// Small sheets, of which many are told, and many refused on either side.
#[test]
fn random_pairs() {
    let tally = compare(&ROOMY.map(|draw| (draw, None)), 150);
    assert!(tally.equal > 30 && tally.with.iter().all(|&times| times > 30));
    for refused in tally.refused {
        assert!(refused[4] > 2 && refused[7] > 2 && refused[8] > 2);
        assert_eq!((refused[0], refused[9], refused[10]), (0, 0, 0));
    }
}

/// Times as a controller has them, whose numbers have up to seven digits.
#[test]
fn long_times() {
    let tally = compare(&LONG.map(|(draw, grain)| (draw, Some(grain))), 40);
    assert!(tally.equal > 2 && tally.with.iter().all(|&times| times > 0));
}

/// Document 01's sheet with each byte changed, on either side of the sheet itself.
#[test]
fn every_byte_of_a_sheet() {
    let random = &mut Random::for_test();
    let mut tally = Tally::default();
    let sheet = SHEET.as_bytes();
    for place in 0..sheet.len() {
        for byte in *b"\t\n018aZ-._\0\xff" {
            let mut changed = sheet.to_vec();
            changed[place] = byte;
            for asked in [Asked(sheet, &changed), Asked(&changed, sheet)] {
                if let Err(why) = tally.asked(asked, Way::EveryLength, random) {
                    panic!("{asked}\n{why}");
                }
            }
        }
    }
    println!("{tally}");
    assert!(tally.told > 200);
}
