//! The oracle's reasons for verdicts: its two ways of looking agree, the figures add up, and it gives
//! the stated answers of `tests/data/why` and `tests/data/why-records`.

#![warn(clippy::all, clippy::pedantic)]

use inputs::cores::{lent_costs, lent_records, whole_core, Draw};
use inputs::sheets::{damaged, SMALL};
use inputs::{bytes, cases, Random};
use plain::demand::{jobs_due, Core, BUSY_MOST};
use plain::desk::refusal_line;
use plain::refusal::Refusal;
use plain::sheet;
use plain::verdict::{Verdict, Way};
use plain::why::{self, Figures};

const WAYS: [Way; 2] = [Way::EveryLength, Way::Stretches];

/// Bytes as text, for a message that can be read.
fn shown(bytes: &[u8]) -> String {
    String::from_utf8_lossy(bytes).into_owned()
}

/// A text, or the line of the refusal.
fn line(answer: Result<Vec<u8>, Refusal>) -> String {
    shown(&answer.unwrap_or_else(refusal_line))
}

#[test]
fn records_with_stated_reasons() {
    let folder = "why-records";
    let mut compared = 0;
    for case in cases(folder, ".out") {
        let file = |ending| bytes(folder, &format!("{case}.{ending}"));
        let answer = why::of_records(&file("rec"), &file("cost"), Way::Stretches);
        assert_eq!(line(answer), shown(&file("out")), "{folder}/{case}");
        compared += 1;
    }
    println!("{compared} compared");
    assert_eq!(compared, 42);
}

#[test]
fn cores_with_stated_reasons() {
    let folder = "why";
    let mut compared = 0;
    for case in cases(folder, ".out") {
        let file = |ending| bytes(folder, &format!("{case}.{ending}"));
        let core = shown(&file("core")).trim_end().parse().unwrap();
        let answer = why::of_sheet(&file("sheet"), core, Way::Stretches);
        assert_eq!(line(answer), shown(&file("out")), "{folder}/{case}");
        compared += 1;
    }
    println!("{compared} compared");
    assert_eq!(compared, 66);
}

/// The figures of small cores are the same by both ways, and those that the verdict's rules give. Least
/// slack is now and then where no job falls due, and above all windows.
#[test]
fn figures_add_up() {
    let mut random = Random::for_test();
    let (mut passes, mut overloaded, mut undecided, mut empty) = (0, 0, 0, 0);
    let (mut off_deadlines, mut past_windows) = (0, 0);
    for draw in [
        Draw::new(5, 12, 0, 0),
        Draw::new(5, 12, 30, 1),
        Draw::new(4, 40, 25, 2),
        Draw::new(6, 60, 220, 0),
        Draw::new(6, 200, 120, 6),
    ] {
        for _ in 0..6_000 {
            let core = draw.core(&mut random);
            let [every, stretches] = WAYS.map(|way| Figures::of(&core, way));
            assert_eq!(every, stretches, "{core:?}");
            let figures = if let Some(figures) = every {
                figures
            } else {
                empty += 1;
                assert!(core.pieces.is_empty());
                continue;
            };
            let (length, total) = (figures.length, figures.total());
            assert_eq!(figures.terms.len(), core.pieces.len());
            match figures.verdict {
                Verdict::Undecided => {
                    undecided += 1;
                    assert_eq!((length, total), (BUSY_MOST, core.busy_sum(BUSY_MOST)));
                    assert!(total > length, "{core:?}");
                }
                Verdict::Overloaded(at) => {
                    overloaded += 1;
                    assert_eq!((length, total), (at, core.demand(at)), "{core:?}");
                    assert!(total > length, "{core:?}");
                }
                Verdict::Passes => {
                    passes += 1;
                    assert_eq!(total, core.demand(length), "{core:?}");
                    assert_least(&core, length);
                    let below = length.checked_sub(1);
                    let none_due = below.map_or(false, |below| {
                        let jobs = |t| core.pieces.iter().map(move |p| jobs_due(p, t));
                        jobs(below).eq(jobs(length))
                    });
                    off_deadlines += u64::from(none_due);
                    past_windows += u64::from(length > core.largest_window());
                }
            }
        }
    }
    println!("{passes} passes, {overloaded} overloaded, {undecided} undecided, {empty} empty");
    println!("least slack: {off_deadlines} off every deadline, {past_windows} above all windows");
    assert!(passes > 1_000 && overloaded > 1_000 && undecided > 1_000 && empty > 1_000);
    assert!(off_deadlines > 100 && past_windows > 100);
}

/// The length is in the judged span of a core that passes; no other has less slack, and none below has
/// as little.
fn assert_least(core: &Core, length: u64) {
    let first = core.least_live();
    let span = first..first + core.busy_length().unwrap();
    assert!(span.contains(&length), "{length}, {core:?}");
    let slack = |t: u64| t - core.demand(t);
    let least = slack(length);
    for t in span {
        let right = if t < length {
            slack(t) > least
        } else {
            slack(t) >= least
        };
        assert!(right, "{t} and not {length}: {core:?}");
    }
}

/// The two ways give the same texts for random sheets, whole and damaged, and cores.
#[test]
fn cores_of_sheets_both_ways() {
    let mut random = Random::for_test();
    let (mut planned, mut stuck, mut refused, mut no_core) = (0, 0, 0, 0);
    for draw in SMALL {
        for _ in 0..800 {
            let mut text = draw.sheet(&mut random);
            if random.once_in(6) {
                text = damaged(&text, &mut random);
            }
            let cores = sheet::read(&text).map_or(1, |sheet| sheet.machine.cores);
            let core = if random.once_in(10) {
                random.pick(&[0, cores + 1, u64::MAX])
            } else {
                random.between(1, cores)
            };
            let [every, stretches] = WAYS.map(|way| why::of_sheet(&text, core, way));
            assert_eq!(every, stretches, "core {core} of {}", shown(&text));
            match every {
                Ok(why) if why.starts_with(b"noroom\t") => stuck += 1,
                Ok(_) => planned += 1,
                Err(refusal) if refusal == Refusal::new(1, 0) => no_core += 1,
                Err(_) => refused += 1,
            }
        }
    }
    println!("{planned} planned, {stuck} stuck, {no_core} without that core, {refused} refused");
    assert!(planned > 300 && stuck > 300 && refused > 300 && no_core > 300);
}

/// A lent buffer holds the text and beyond it what it held; one byte less is 10.
#[test]
fn lent_buffers() {
    let core = whole_core(&[(5, 5, 10); 2]); // K3
    let (records, costs) = (lent_records(&core), lent_costs(&core));
    let text = why::of_records(&records, &costs, Way::EveryLength).unwrap();
    let length = text.len();
    for size in 0..2 * length {
        let mut buffer = vec![7; size];
        let answer = why::write_records(&records, &costs, &mut buffer, Way::EveryLength);
        if size < length {
            let needed = u32::try_from(length).unwrap();
            assert_eq!(answer, Err(Refusal::new(10, needed)));
            assert_eq!(buffer, vec![7; size]);
        } else {
            assert_eq!(answer, Ok(length));
            assert_eq!(&buffer[..length], text);
            assert_eq!(&buffer[length..], vec![7; size - length]);
        }
    }
    println!("{} compared", 2 * length);
}
