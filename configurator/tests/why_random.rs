//! The library's reasons for its verdicts, and its demands, against the oracle's: on random cores and
//! sheets, whole and damaged, in buffers of lengths by chance.

#![warn(clippy::all, clippy::pedantic)]

mod common;

use std::cell::RefCell;

use common::listings::shown;
use common::why::{core_of, Asked, Said, Tally};
use configurator::demand_at;
use inputs::cores::{damage, full_load, lent_costs, lent_records, tiny_pairs, Draw};
use inputs::sheets::{self, LONG, SMALL};
use inputs::strategies::{self, smallest_failure};
use inputs::{rounds, Random};
use plain::demand::{jobs_due, Core};
use plain::records::RECORD_BYTES;
use plain::verdict::Way;
use plain::why;

/// Compares the library with the oracle on a core.
fn core(tally: &mut Tally, core: &Core, random: &mut Random) -> Said {
    let (records, costs) = (lent_records(core), lent_costs(core));
    tally.asked(Asked::Records(&records, &costs), Way::Stretches, random)
}

/// The length that a text about records is shown at.
fn length_of(said: &Said) -> u64 {
    let text = shown(said.as_ref().unwrap());
    let field = text.split(['\t', '\n']).nth(2);
    field.unwrap().parse().unwrap()
}

/// Compares that many random cores of each draw. Each kind of verdict must come up now and then, so
/// that the draws are worth something.
fn compare(draws: &[Draw], each: u64) {
    let mut random = Random::for_test();
    let mut tally = Tally::default();
    for draw in draws {
        for _ in 0..rounds(each) {
            let _ = core(&mut tally, &draw.core(&mut random), &mut random);
        }
    }
    println!("{tally}");
    let least = tally.compared() / 100;
    assert!(tally.passes >= least && tally.overloaded >= least && tally.undecided >= least);
    assert_eq!(tally.told(), tally.compared());
}

#[test]
fn small_cores_without_costs() {
    compare(&[Draw::new(5, 12, 0, 0), Draw::new(7, 60, 0, 0)], 1_500);
}

/// With jitter and costs the least slack may be where no job falls due, below the largest window, where
/// the demand can fall, and above it. Each comes up.
#[test]
fn small_cores_with_costs_and_jitter() {
    let mut random = Random::for_test();
    let mut tally = Tally::default();
    let (mut off_deadlines, mut below_window, mut above_window) = (0, 0, 0);
    for draw in [
        Draw::new(5, 12, 30, 0),
        Draw::new(4, 40, 25, 2),
        Draw::new(5, 60, 220, 0),
        Draw::new(6, 200, 0, 6),
        Draw::new(6, 200, 120, 6),
    ] {
        for _ in 0..rounds(1_500) {
            let drawn = draw.core(&mut random);
            let before = tally.passes;
            let said = core(&mut tally, &drawn, &mut random);
            if tally.passes > before {
                let length = length_of(&said);
                let due = |t| drawn.pieces.iter().map(move |p| jobs_due(p, t));
                let none_due = length > 0 && due(length - 1).eq(due(length));
                off_deadlines += u64::from(none_due);
                below_window += u64::from(length < drawn.largest_window());
                above_window += u64::from(length > drawn.largest_window());
            }
        }
    }
    println!("{tally}");
    println!("least slack: {off_deadlines} off every deadline, {below_window} below the largest window, {above_window} above");
    assert!(tally.passes > 1_000 && tally.overloaded > 1_000 && tally.undecided > 1_000);
    assert!(off_deadlines > 50 && below_window > 300 && above_window > 50);
}

#[test]
fn many_pieces() {
    compare(&[Draw::new(79, 900, 10, 1)], 400);
}

#[test]
fn long_spans() {
    let machine = Draw::new(8, 50_000, 10, 100);
    let slow = Draw::new(10, 1_000_000, 5, 2_000);
    let mixed = Draw::new(20, 1_000_000, 100, 100_000);
    compare(&[machine, slow, mixed], 300);
}

/// A full load, where many lengths have nothing left and the shortest is shown.
#[test]
fn full_loads() {
    let mut random = Random::for_test();
    let mut tally = Tally::default();
    for _ in 0..rounds(2_000) {
        let _ = core(&mut tally, &full_load(&mut random), &mut random);
    }
    println!("{tally}");
    assert!(tally.passes > 300 && tally.overloaded > 300 && tally.undecided > 30);
}

#[test]
fn pairs_of_tiny_pieces() {
    let mut random = Random::for_test();
    let mut tally = Tally::default();
    for drawn in tiny_pairs() {
        // most have no busy length, and one in twenty of these will do
        if drawn.busy_length().is_some() || random.once_in(20) {
            let _ = core(&mut tally, &drawn, &mut random);
        }
    }
    println!("{tally}");
    assert!(tally.passes > 300 && tally.overloaded > 300 && tally.undecided > 300);
}

/// Random cores with records or costs damaged. Each refusal of records comes up.
#[test]
fn damaged_records() {
    let mut random = Random::for_test();
    let mut tally = Tally::default();
    let draws = [Draw::new(6, 700, 50, 8), Draw::new(3, 40, 20, 0)];
    for _ in 0..rounds(5_000) {
        let core = random.pick(&draws).core(&mut random);
        let (mut records, mut costs) = (lent_records(&core), lent_costs(&core));
        if random.once_in(20) && !records.is_empty() {
            let many = random.between(76, 84);
            records = records[..RECORD_BYTES].repeat(usize::try_from(many).unwrap());
        }
        if random.once_in(4) {
            damage(&mut costs, &mut random);
        } else if !random.once_in(8) {
            damage(&mut records, &mut random);
        }
        let asked = Asked::Records(&records, &costs);
        let _ = tally.asked(asked, Way::Stretches, &mut random);
    }
    println!("{tally}");
    let refused = [2, 3, 6, 8].map(|number: usize| tally.refused[number]);
    assert!(refused.iter().all(|&times| times > 50) && tally.passes > 200);
    assert_eq!(tally.told() + refused.iter().sum::<u64>(), tally.compared());
}

/// More than one in so many is told why a core passes, and why there is no room.
fn assert_often(tally: &Tally, one_in: u64) {
    let least = tally.compared() / one_in;
    assert!(tally.passes > least && tally.no_room > least);
    assert_eq!(tally.told() + tally.no_core, tally.compared());
}

#[test]
fn whole_sheets() {
    let mut random = Random::for_test();
    let mut tally = Tally::default();
    for draw in SMALL {
        for _ in 0..rounds(200) {
            let sheet = draw.sheet(&mut random);
            let asked = Asked::Core(&sheet, core_of(&sheet, &mut random));
            let _ = tally.asked(asked, Way::EveryLength, &mut random);
        }
    }
    println!("{tally}");
    assert_often(&tally, 10);
    assert!(
        tally.overloaded > 30 && tally.undecided > 30 && tally.empty > 30 && tally.no_core > 30
    );
}

/// Loads near the most that the cores can take, and times as a controller has them.
#[test]
fn heavy_and_long_sheets() {
    let mut random = Random::for_test();
    let mut tally = Tally::default();
    for (cost, each) in [(0, 150), (2, 20)] {
        for _ in 0..rounds(each) {
            let sheet = sheets::full_load(cost, &mut random);
            let asked = Asked::Core(&sheet, core_of(&sheet, &mut random));
            let _ = tally.asked(asked, Way::Stretches, &mut random);
        }
    }
    for (draw, grain) in LONG {
        for _ in 0..rounds(25) {
            let sheet = draw.with_grain(grain, &mut random);
            let asked = Asked::Core(&sheet, core_of(&sheet, &mut random));
            let _ = tally.asked(asked, Way::Stretches, &mut random);
        }
    }
    println!("{tally}");
    assert_often(&tally, 5);
}

/// Sheets whole and damaged; where the library and the oracle differ, a small one is told. Each
/// number of a refusal that a sheet of fewer than 16,385 bytes can have comes up, but for 7.
#[test]
fn damaged_sheets() {
    let random = &mut Random::for_test();
    let tally = RefCell::new(Tally::default());
    for draw in SMALL {
        let sheets = strategies::damaged_sheets(draw);
        let by_chance = RefCell::new(Random::new(random.any()));
        let failed = smallest_failure(&sheets, rounds(200), random, |sheet| {
            let (sheet, by_chance) = (sheet.bytes(), &mut by_chance.borrow_mut());
            let asked = Asked::Core(&sheet, core_of(&sheet, by_chance));
            let right = asked.oracle(Way::Stretches);
            let compared = tally.borrow_mut().compare(asked, &right, by_chance);
            compared.map_err(|why| format!("{asked}\n{why}"))
        });
        if let Some((why, sheet)) = failed {
            panic!("the smallest sheet found on which they differ:\n{sheet:?}\n{why}");
        }
    }
    let tally = tally.into_inner();
    println!("{tally}");
    assert!(tally.passes > 30 && tally.no_room > 50 && tally.no_core > 5);
    let refused = [1, 2, 3, 4, 5, 6, 8].map(|number: usize| tally.refused[number]);
    assert!(refused.iter().all(|&times| times > 0), "{refused:?}");
    let others = [0, 7, 9, 10].map(|number: usize| tally.refused[number]);
    assert_eq!(others, [0; 4]);
}

/// Cut at every place.
#[test]
fn cut_sheets() {
    let mut random = Random::for_test();
    let mut tally = Tally::default();
    for draw in SMALL {
        let sheet = draw.sheet(&mut random);
        for length in 0..=sheet.len() {
            let asked = Asked::Core(&sheet[..length], 1);
            let _ = tally.asked(asked, Way::Stretches, &mut random);
        }
    }
    println!("{tally}");
    assert!(tally.refused[8] > 200 && tally.told() >= 10);
}

/// Demands of random cores, whole and damaged, at lengths from 0 to beyond all that are answered.
#[test]
fn demands() {
    let mut random = Random::for_test();
    let (mut compared, mut above_zero, mut refused) = (0, 0, 0);
    for draw in [
        Draw::new(5, 12, 30, 1),
        Draw::new(6, 200, 120, 6),
        Draw::new(79, 900, 10, 1),
        Draw::new(20, 1_000_000, 100, 100_000),
    ] {
        for _ in 0..rounds(600) {
            let core = draw.core(&mut random);
            let (mut records, mut costs) = (lent_records(&core), lent_costs(&core));
            if random.once_in(5) {
                damage(&mut records, &mut random);
            } else if random.once_in(10) {
                damage(&mut costs, &mut random);
            }
            refused += u64::from(plain::records::read(&records, &costs).is_err());
            let window = core.largest_window();
            let near = random.between(0, 3 * draw.period);
            let far = random.between(0, 101_000_000);
            let lengths = [
                0,
                near,
                far,
                core.least_live(),
                window.saturating_sub(1),
                window,
                101_000_000,
                101_000_001,
                random.any(),
                u64::MAX,
            ];
            for length in lengths {
                let right = why::demand_at(&records, &costs, length);
                let demand = demand_at(&records, &costs, length);
                assert_eq!(demand, right, "at {length}: {core:?}");
                compared += 1;
                above_zero += u64::from(demand > 0);
            }
        }
    }
    println!("{compared} compared, {above_zero} above 0; {refused} refused");
    assert!(above_zero > 5_000 && refused > 200);
}
