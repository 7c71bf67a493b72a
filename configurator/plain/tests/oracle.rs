//! The oracle itself: its two ways of looking agree, it gives document 01's examples, and it gives
//! the stated answers of `tests/data/plan`, `tests/data/desk` and `tests/data/special`.

#![warn(clippy::all, clippy::pedantic)]

use std::fs;

use inputs::cores::{piece, Draw};
use inputs::sheets::{damaged, LISTING, SHEET, SMALL};
use inputs::stated::candidates;
use inputs::{bytes, cases, data, Random};
use plain::demand::Core;
use plain::piece::{Costs, Kind, Piece};
use plain::refusal::Refusal;
use plain::sheet::{self, Sheet};
use plain::task::Times;
use plain::verdict::{by_every_length, by_stretches, Way};
use plain::walk::{greatest_split, tight_window};
use plain::{desk, listing};

const WAYS: [Way; 2] = [Way::EveryLength, Way::Stretches];

/// Looks at that many small cores of each of some draws, with the longest period.
fn small_cores(each: u64, mut look: impl FnMut(&Core, u64, &mut Random)) {
    let mut random = Random::for_test();
    for draw in [
        Draw::new(5, 12, 0, 0),
        Draw::new(5, 12, 30, 1),
        Draw::new(4, 40, 25, 2),
        Draw::new(6, 60, 220, 0),
        Draw::new(6, 200, 120, 6),
    ] {
        for _ in 0..each {
            look(&draw.core(&mut random), draw.period, &mut random);
        }
    }
}

/// The longest period of a sheet's tasks.
fn longest_period(sheet: &Sheet) -> u64 {
    let periods = sheet.tasks.iter().map(|t| t.times.period);
    periods.max().unwrap_or(0)
}

/// Looking at every length is for sheets with at most this many candidates times the longest period.
const EVERY_LENGTH_MOST: u64 = 2_000_000;

#[test]
fn cases_with_stated_answers() {
    let (mut every, mut stretches) = (0, 0);
    for folder in ["plan", "desk", "special"] {
        for case in cases(folder, ".sheet") {
            let text = bytes(folder, &format!("{case}.sheet"));
            let expected = bytes(folder, &format!("{case}.out"));
            let (tries, period) = match sheet::read(&text) {
                Ok(sheet) => (candidates(&sheet), longest_period(&sheet)),
                Err(_) => (0, 0),
            };
            let answer = |way| match fs::read(data(folder).join(format!("{case}.script"))) {
                Ok(script) => desk::play(&text, &script, way),
                Err(_) => listing::of_sheet(&text, way).unwrap_or_else(desk::refusal_line),
            };
            let same = |way| {
                let answer = answer(way);
                let (answer, expected) = (shown(&answer), shown(&expected));
                assert_eq!(answer, expected, "{folder}/{case}, {way:?}");
            };
            same(Way::Stretches);
            stretches += 1;
            if tries * period <= EVERY_LENGTH_MOST {
                same(Way::EveryLength);
                every += 1;
            }
        }
    }
    println!("{stretches} compared by stretches, {every} of them by every length too");
    assert_eq!((stretches, every), (213, 162));
}

/// Bytes as text, for a message that can be read.
fn shown(bytes: &[u8]) -> String {
    String::from_utf8_lossy(bytes).into_owned()
}

/// A lent buffer holds the listing and beyond it what it held; one byte less is 10.
#[test]
fn lent_buffers() {
    let length = LISTING.len();
    for size in 0..2 * length {
        let mut buffer = vec![7; size];
        let answer = listing::write(SHEET.as_bytes(), &mut buffer, Way::EveryLength);
        if size < length {
            assert_eq!(
                answer,
                Err(Refusal::new(10, u32::try_from(length).unwrap()))
            );
            assert_eq!(buffer, vec![7; size]);
        } else {
            assert_eq!(answer, Ok(length));
            assert_eq!(&buffer[..length], LISTING.as_bytes());
            assert_eq!(&buffer[length..], vec![7; size - length]);
        }
    }
    println!("{} compared", 2 * length);
}

/// The climb finds the busy length that stepping up from 1 finds, and the least live length is what
/// its name says.
#[test]
fn busy_and_live_lengths() {
    const STEPS: u64 = 3_000;
    let (mut compared, mut beyond) = (0, 0);
    small_cores(2_000, |core, period, _| {
        let stepped = (1..=STEPS).find(|&length| core.busy_sum(length) <= length);
        let climbed = core.busy_length().filter(|&length| length <= STEPS);
        assert_eq!(climbed, stepped, "{core:?}");
        let live = (0..=period).find(|&t| core.live(t));
        assert_eq!(live.unwrap_or(0), core.least_live(), "{core:?}");
        compared += 1;
        beyond += u64::from(stepped.is_none());
    });
    println!("{compared} compared, {beyond} with no busy length up to {STEPS}");
}

/// Looking at one length of each stretch gives the verdict of looking at every length, and the
/// demand is indeed equal from a stretch's start on.
#[test]
fn verdicts_by_stretches() {
    let mut compared = 0;
    small_cores(6_000, |core, period, random| {
        assert_eq!(by_stretches(core), by_every_length(core), "{core:?}");
        let t = random.between(0, 3 * period);
        let start = core.stretch_start(t);
        let equal = (start..=t).all(|u| core.demand(u) == core.demand(t));
        assert!(equal, "from {start} to {t}: {core:?}");
        compared += 1;
    });
    println!("{compared} compared");
}

/// K9 and K10.
#[test]
fn numbered_tight_windows() {
    let costs = Costs {
        relo: 2,
        tseto: 1,
        schedo: 3,
        ipb: 4,
        beto: 2,
        migro: 1,
        ..Costs::default()
    };
    let empty = Core {
        costs,
        pieces: vec![],
    };
    let first = piece(Kind::First, (5, 5, 100));
    let late = Piece { jitter: 5, ..first };
    for way in WAYS {
        assert_eq!(tight_window(&empty, &first, 1_000, way), Some(26), "K9");
        assert_eq!(tight_window(&empty, &late, 1_000, way), Some(31), "K10");
        assert_eq!(tight_window(&empty, &first, 26, way), Some(26));
        assert_eq!(tight_window(&empty, &first, 25, way), None);
        assert_eq!(tight_window(&empty, &late, 4, way), None);
    }
    println!("10 compared");
}

/// The two ways find the same tight windows and the same splits. With costs, J and P zero the tight
/// window is x itself, which is C=D.
#[test]
fn splits_both_ways() {
    let mut random = Random::for_test();
    let (mut compared, mut split, mut with_costs) = (0, 0, 0);
    for (period, jitter, cost) in [(12, 0, 0), (30, 0, 0), (100, 20, 1), (250, 30, 3)] {
        let draw = Draw::new(3, period, jitter, cost);
        for _ in 0..2_500 {
            let core = draw.core(&mut random);
            let period = random.between(1, period);
            let deadline = random.between(1, period);
            let times = Times {
                budget: random.between(1, deadline),
                deadline,
                period,
                jitter: if jitter > 0 {
                    random.between(0, period / 2)
                } else {
                    0
                },
                preemption: random.between(0, cost),
                migration: random.between(0, cost),
            };
            let grain = random.pick(&[1, 1, 2, 5]);
            let [every, stretches] = WAYS.map(|way| greatest_split(&core, &times, grain, way));
            assert_eq!(every, stretches, "{times:?} on {core:?}");
            compared += 1;
            if let Some((first, last)) = every {
                assert_eq!(first.budget % grain, 0);
                assert_eq!(first.budget + last.budget, times.budget);
                assert_eq!(first.window + last.window, times.deadline);
                let Costs {
                    pi,
                    ipb,
                    relo,
                    tseto,
                    ..
                } = core.costs;
                assert_eq!(last.jitter, pi + ipb + relo + tseto);
                split += 1;
                if cost == 0 {
                    assert_eq!(first.window, first.budget, "C=D");
                } else {
                    with_costs += 1;
                }
            }
        }
    }
    println!("{compared} compared, {split} split, {with_costs} of them with costs");
    assert!(split - with_costs > 300 && with_costs > 300);
}

/// The two ways make the same plans of random sheets and the same answers to random scripts, whole
/// and damaged.
#[test]
fn plans_both_ways() {
    let mut random = Random::for_test();
    let (mut plans, mut split, mut stuck, mut refused, mut scripts) = (0, 0, 0, 0, 0);
    for draw in SMALL {
        for _ in 0..1_200 {
            let mut text = draw.sheet(&mut random);
            if random.once_in(4) {
                text = damaged(&text, &mut random);
            }
            let [every, stretches] = WAYS.map(|way| listing::of_sheet(&text, way));
            assert_eq!(every, stretches, "{}", shown(&text));
            match every {
                Ok(listing) => {
                    plans += 1;
                    split += u64::from(shown(&listing).contains("\tlast\t"));
                    let script = draw.script(random.between(1, 6), &mut random);
                    let [every, stretches] = WAYS.map(|way| desk::play(&text, &script, way));
                    assert_eq!(every, stretches, "{}{}", shown(&text), shown(&script));
                    scripts += 1;
                }
                Err(refusal) if refusal.number == 7 => stuck += 1,
                Err(_) => refused += 1,
            }
        }
    }
    println!(
        "{} sheets compared: {plans} plans ({split} with a split), {stuck} stuck, {refused} refused",
        plans + stuck + refused
    );
    println!("{scripts} scripts compared");
    assert!(split > 300 && stuck > 300 && refused > 300);
}
