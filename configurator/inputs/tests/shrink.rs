//! What fails is told by a small sheet, or a small pair: the oracle's answers stand for failures here.

#![warn(clippy::all, clippy::pedantic)]

use inputs::pairs::pairs;
use inputs::random::{Random, SEED};
use inputs::sheets::SheetDraw;
use inputs::strategies::{damaged_sheets, smallest_failure};
use plain::diff::{self, Refused};
use plain::listing;
use plain::refusal::Refusal;
use plain::verdict::Way;

const DRAW: SheetDraw = SheetDraw::new(4, 120, 2, 6);

/// The smallest sheet found that the oracle answers so, as text.
fn smallest(so: impl Fn(Result<Vec<u8>, Refusal>) -> bool) -> String {
    let random = &mut Random::new(SEED);
    let found = smallest_failure(&damaged_sheets(DRAW), 8_000, random, |damaged| {
        let answer = listing::of_sheet(&damaged.bytes(), Way::EveryLength);
        if so(answer) {
            Err("it is answered so".to_owned())
        } else {
            Ok(())
        }
    });
    let (_, damaged) = found.expect("some sheet is answered so");
    String::from_utf8_lossy(&damaged.bytes()).into_owned()
}

/// What fails is told by a sheet of a few lines.
#[test]
fn failures_shrink() {
    let split = |listing: Vec<u8>| String::from_utf8_lossy(&listing).contains("\tlast\t");
    let mut found = vec![smallest(|answer| answer.map_or(false, split))];
    for number in [1, 2, 3, 5, 7, 8] {
        found.push(smallest(|answer| {
            answer.map_err(|why| why.number) == Err(number)
        }));
    }
    for sheet in found {
        println!("{sheet:?}");
        assert!(sheet.lines().count() <= 6);
    }
}

/// The smallest pair found that the oracle answers so, as text.
fn smallest_pair(so: impl Fn(Result<Vec<u8>, Refused>) -> bool) -> [String; 2] {
    let random = &mut Random::new(SEED);
    let found = smallest_failure(&pairs(DRAW, None), 2_000, random, |pair| {
        let [first, second] = pair.bytes();
        if so(diff::of_sheets(&first, &second, Way::Stretches)) {
            Err("it is answered so".to_owned())
        } else {
            Ok(())
        }
    });
    let (_, pair) = found.expect("some pair is answered so");
    pair.bytes()
        .map(|sheet| String::from_utf8_lossy(&sheet).into_owned())
}

/// What fails is told by two sheets of a few lines.
#[test]
fn failures_of_pairs_shrink() {
    for word in ["only1\t", "only2\t", "was\t", "\tlast\t"] {
        let said = |text: Vec<u8>| String::from_utf8_lossy(&text).contains(word);
        let pair = smallest_pair(|answer| answer.map_or(false, said));
        println!("{word:?}: {pair:?}");
        assert!(pair.iter().all(|sheet| sheet.lines().count() <= 6));
    }
    let second = |answer| matches!(answer, Err(Refused::Second(_)));
    let [whole, refused] = smallest_pair(second);
    println!("{whole:?}, {refused:?}");
    assert!(whole.lines().count() <= 4 && refused.lines().count() <= 5);
}
