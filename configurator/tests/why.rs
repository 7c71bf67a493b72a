//! The library's reasons for its verdicts: the cases of `tests/data`, document 01's numbered examples and
//! others worked out by hand, lent buffers of every length, refusals in their order, and the demand.

#![warn(clippy::all, clippy::pedantic)]

mod common;

use std::fmt::Write as _;

use common::listings::{broken_sheets, shown, stated, text, GOOD};
use common::why::{Asked, Said, Tally};
use configurator::{demand_at, plan, verdict, Answer, Refusal};
use inputs::cores::{lent, lent_costs, lent_records, piece, whole_core};
use inputs::sheets::SHEET;
use inputs::{bytes, cases, Random};
use plain::demand::Core;
use plain::piece::{Costs, Kind, Piece};
use plain::verdict::Way;

/// Both the library's and the oracle's answer are as expected.
fn expect(name: &str, asked: Asked, expected: &Said) {
    let needed = expected.as_ref().map_or(80, Vec::len);
    if let Err(why) = asked.compare(expected, needed) {
        panic!("{name}: {asked}\n{why}");
    }
    let oracle = asked.oracle(Way::EveryLength);
    let texts = [&oracle, expected].map(|said| said.as_deref().map(shown));
    assert_eq!(texts[0], texts[1], "{name}, oracle");
}

/// The reasons for the verdict on a core are these lines.
fn expect_lines(name: &str, core: &Core, lines: &str) {
    let (records, costs) = (lent_records(core), lent_costs(core));
    expect(name, Asked::Records(&records, &costs), &Ok(text(lines)));
}

#[test]
fn cases_with_stated_answers() {
    let mut random = Random::for_test();
    let mut records = Tally::default();
    for case in cases("why-records", ".out") {
        let file = |ending| bytes("why-records", &format!("{case}.{ending}"));
        let (lent, costs) = (file("rec"), file("cost"));
        records.right(
            Asked::Records(&lent, &costs),
            &stated(file("out")),
            &mut random,
        );
    }
    println!("records: {records}");
    assert_eq!((records.told(), records.compared()), (30, 42));
    let mut cores = Tally::default();
    for case in cases("why", ".out") {
        let file = |ending| bytes("why", &format!("{case}.{ending}"));
        let (sheet, core) = (file("sheet"), shown(&file("core")));
        let core = core.trim_end().parse().unwrap();
        cores.right(Asked::Core(&sheet, core), &stated(file("out")), &mut random);
    }
    println!("cores: {cores}");
    assert_eq!(
        (cores.no_room, cores.told(), cores.compared()),
        (26, 61, 66)
    );
}

/// Document 01's verdicts, each with its figures worked out by hand from its rules.
#[test]
fn numbered_examples() {
    let costs = |relo, schedo, tseto, ipb| Costs {
        relo,
        schedo,
        tseto,
        ipb,
        ..Costs::default()
    };
    let fours = [(2, 10, 10); 4];
    let k5 = [&fours[..], &[(2, 2, 10)]].concat();
    let k6 = [&fours[..], &[(3, 3, 10)]].concat();
    let k7 = Core {
        costs: costs(0, 0, 0, 4),
        ..whole_core(&[(8, 10, 50), (1, 12, 50)])
    };
    let k8 = Core {
        costs: costs(2, 3, 1, 4),
        ..whole_core(&[(5, 100, 100)])
    };
    let mut k11 = whole_core(&[(1, 5, 10)]);
    k11.pieces[0].jitter = 5;

    expect_lines("K1", &whole_core(&[]), "why passes 0 0");
    expect_lines(
        "K2",
        &whole_core(&[(1, 1, 1)]),
        "why passes 1 0
        piece 1 whole 1 1 0
        total 1
        slack 0",
    );
    expect_lines(
        "K3",
        &whole_core(&[(5, 5, 10); 2]),
        "why overloaded 9 0
        piece 1 whole 1 5 0
        piece 2 whole 1 5 0
        total 10
        slack -1",
    );
    expect_lines(
        "K4",
        &whole_core(&[(6, 10, 10); 2]),
        "why undecided 100000000 0
        piece 1 whole 10000000 60000000 0
        piece 2 whole 10000000 60000000 0
        total 120000000
        slack -20000000",
    );
    // both at 2 and at 10 nothing is left; the shorter is shown
    expect_lines(
        "K5",
        &whole_core(&k5),
        "why passes 2 0
        piece 1 whole 0 0 0
        piece 2 whole 0 0 0
        piece 3 whole 0 0 0
        piece 4 whole 0 0 0
        piece 5 whole 1 2 0
        total 2
        slack 0",
    );
    expect_lines(
        "K6",
        &whole_core(&k6),
        "why undecided 100000000 0
        piece 1 whole 10000000 20000000 0
        piece 2 whole 10000000 20000000 0
        piece 3 whole 10000000 20000000 0
        piece 4 whole 10000000 20000000 0
        piece 5 whole 10000000 30000000 0
        total 110000000
        slack -10000000",
    );
    expect_lines(
        "K7",
        &k7,
        "why overloaded 11 4
        piece 1 whole 1 8 0
        piece 2 whole 0 0 0
        total 12
        slack -1",
    );
    // at 101 the second release interrupt has come
    expect_lines(
        "K8",
        &k8,
        "why passes 101 0
        piece 1 whole 1 12 6
        total 18
        slack 83",
    );
    expect_lines(
        "K11",
        &k11,
        "why overloaded 0 0
        piece 1 whole 1 1 0
        total 1
        slack -1",
    );
    println!("9 compared");
}

/// A last piece with its inter-processor interrupts and a first piece, with every cost, worked out by
/// hand.
#[test]
fn costs_of_split_pieces() {
    let costs = Costs::from_numbers([1, 3, 2, 20, 5, 6, 7, 8, 9]);
    let last = Piece {
        jitter: 3,
        preemption: 1,
        migration: 2,
        ..piece(Kind::Last, (10, 100, 100))
    };
    // From 97 on a job of 21 is due, and the core can be held up for 20 below 100. From 98 on there are
    // two releases of 3 each, and two of the interrupts of 7 that wake it from 93 on.
    let core = Core {
        costs,
        pieces: vec![last],
    };
    expect_lines(
        "a last piece",
        &core,
        "why passes 98 20
        piece 1 last 1 21 20
        total 61
        slack 37",
    );
    // A first piece is charged 1 + 2 * 3 + 2 + 20 + 5 + 6 = 40 and has releases of 3; the last one is
    // charged 1 + 2 * 3 + 2 + 10 = 19, and each of its jobs brings 3 + 7.
    let first = piece(Kind::First, (1, 3, 3));
    let last = Piece {
        migration: 10,
        ..piece(Kind::Last, (1, 7, 7))
    };
    let core = Core {
        costs,
        pieces: vec![first, last],
    };
    expect_lines(
        "undecided",
        &core,
        "why undecided 100000000 0
        piece 1 first 33333334 1333333360 100000002
        piece 2 last 14285715 271428585 142857150
        total 1847619097
        slack -1747619097",
    );
    println!("2 compared");
}

/// The cores of document 01's sheet, one that stays empty, and cores that the machine doesn't have.
#[test]
fn cores_of_a_sheet() {
    let sheet = SHEET.replace("machine\t2", "machine\t3");
    let core = |core| Asked::Core(sheet.as_bytes(), core);
    let first = "why passes 4 0
        piece press whole 0 0 0
        piece feed first 1 4 0
        total 4
        slack 0";
    let second = "why passes 10 0
        piece feed last 1 3 0
        piece weld whole 1 6 0
        total 9
        slack 1";
    expect("core 1", core(1), &Ok(text(first)));
    expect("core 2", core(2), &Ok(text(second)));
    expect("core 3", core(3), &Ok(text("why passes 0 0")));
    let others = [0, 4, 16, 17, 1 << 32, (1 << 32) + 1, u64::MAX];
    for other in others {
        expect("no core", core(other), &Err(Refusal::new(1, 0)));
    }
    println!("{} compared", 3 + others.len());
}

/// Where the walk sticks, the last core is shown with the stuck task, whichever is asked for. The place
/// is that in the task list, not in packing order.
#[test]
fn no_room() {
    let fourth = SHEET.to_owned() + "fit\tseal\tdrv-a\n";
    assert_eq!(plan(fourth.as_bytes()), Ok(Err(Refusal::new(7, 4))));
    let reasons = "noroom 4 seal 2
        why undecided 100000000 0
        piece feed last 10000000 30000000 0
        piece weld whole 10000000 60000000 0
        piece seal whole 10000000 60000000 0
        total 150000000
        slack -50000000";
    for core in [1, 2] {
        let asked = Asked::Core(fourth.as_bytes(), core);
        expect("four drives", asked, &Ok(text(reasons)));
    }
    for core in [0, 3, u64::MAX] {
        let asked = Asked::Core(fourth.as_bytes(), core);
        expect("four drives", asked, &Err(Refusal::new(1, 0)));
    }
    let order = b"machine\t1\t1\ncost\t0\t0\t0\t0\t0\t0\t0\t0\t0\npart\ta\t3\t10\t10\t0\t0\t0\n\
        part\tb\t6\t10\t10\t0\t0\t0\npart\tc\t5\t9\t10\t0\t0\t0\npart\td\t1\t10\t10\t0\t0\t0\n\
        fit\tone\ta\nfit\ttwo\td\nfit\tthree\tb\nfit\tfour\tc\n";
    let reasons = "noroom 4 four 1
        why undecided 100000000 0
        piece three whole 10000000 60000000 0
        piece four whole 10000000 50000000 0
        total 110000000
        slack -10000000";
    expect("packing order", Asked::Core(order, 1), &Ok(text(reasons)));
    // the stuck task can be overloaded on an empty core: here by the interrupts that hold it up
    let alone = b"machine\t1\t1\ncost\t0\t0\t0\t6\t0\t0\t0\t0\t0\npart\ta\t5\t10\t10\t1\t0\t0\nfit\tone\ta\n";
    let reasons = "noroom 1 one 1
        why overloaded 9 6
        piece one whole 1 5 0
        total 11
        slack -2";
    expect("alone", Asked::Core(alone, 1), &Ok(text(reasons)));
    println!("7 compared");
}

/// In each buffer length from none to some more than the text needs, the text and beyond it what the
/// buffer held, or 10; and a refusal leaves every byte.
#[test]
fn buffers_of_every_length() {
    let mut lengths = 0;
    let mut every_length = |asked: Asked| {
        let right = asked.said().unwrap();
        let needed = right.as_ref().map_or(200, Vec::len);
        for length in (0..=needed + 3).chain([needed + 5_000]) {
            if let Err(why) = asked.compare(&right, length) {
                panic!("{asked}\n{why}");
            }
            lengths += 1;
        }
        right.map(|text| text.len()).map_err(Refusal::number)
    };
    let k3 = lent(&[[0, 5, 5, 10, 0, 0, 0]; 2].concat());
    let free = [0; 36];
    assert_eq!(every_length(Asked::Records(&[], &free)), Ok(15));
    assert_eq!(every_length(Asked::Records(&k3, &free)), Ok(77));
    assert_eq!(every_length(Asked::Records(&k3[1..], &free)), Err(8));
    assert_eq!(every_length(Asked::Records(&k3, &[255; 36])), Err(2));
    assert_eq!(every_length(Asked::Records(&[0; 28], &free)), Err(3));
    assert_eq!(every_length(Asked::Records(&[0; 2_240], &free)), Err(6));
    let sheet = SHEET.as_bytes();
    let fourth = [sheet, b"fit\tseal\tdrv-a\n"].concat();
    assert_eq!(every_length(Asked::Core(sheet, 1)), Ok(78));
    assert_eq!(every_length(Asked::Core(&fourth, 1)), Ok(184));
    assert_eq!(every_length(Asked::Core(sheet, 3)), Err(1));
    assert_eq!(every_length(Asked::Core(&sheet[1..], 1)), Err(8));
    assert_eq!(every_length(Asked::Core(&vec![b','; 16_385], 1)), Err(9));
    println!("{lengths} lengths compared");
}

/// Texts of as many lines as there can be: 79 records with the greatest figures, and 64 tasks with the
/// longest names, the last of which has no room on the only core.
#[test]
fn longest_texts() {
    let most = lent(&[100_000; 9]);
    let records = lent(&[1, 1, 1, 1, 1_000_000, 100_000, 100_000].repeat(79));
    let text = why_text(Asked::Records(&records, &most));
    assert_eq!(text.lines().count(), 1 + 79 + 2);
    assert!(text.contains("\npiece\t79\tfirst\t100000000\t70000100000000\t20000000000000\n"));
    assert!(text.ends_with("\ntotal\t7110007900000000\nslack\t-7110007800000000\n"));
    let mut sheet = "machine\t1\t1\ncost\t0\t0\t0\t0\t0\t0\t0\t0\t0\n".to_owned();
    sheet += "part\tlight\t1\t1000000\t1000000\t0\t0\t0\n";
    sheet += "part\tlate\t1\t1000000\t1000000\t1000000\t0\t0\n";
    for place in 1..=64 {
        let part = if place < 64 { "light" } else { "late" };
        let _ = writeln!(sheet, "fit\tsealing-jaw-of-line-8-{place:02}\t{part}");
    }
    let text = why_text(Asked::Core(sheet.as_bytes(), 1));
    assert_eq!(text.lines().count(), 2 + 64 + 2);
    assert!(text.starts_with("noroom\t64\tsealing-jaw-of-line-8-64\t1\nwhy\toverloaded\t0\t0\n"));
    assert!(text.contains("\npiece\tsealing-jaw-of-line-8-63\twhole\t0\t0\t0\n"));
    assert!(text.ends_with("-64\twhole\t1\t1\t0\ntotal\t1\nslack\t-1\n"));
    println!("2 compared");
}

/// The library's text, which is the oracle's too.
fn why_text(asked: Asked) -> String {
    let said = asked.oracle(Way::Stretches);
    expect("a long text", asked, &said);
    shown(&said.unwrap())
}

/// Where several rules are broken, the first in order is given: 8, 6, 2, 3, 10 for records.
#[test]
fn refusal_order_of_records() {
    let mut compared = 0;
    for broken in 0..32 {
        let [odd_length, too_many, bad_cost, bad_record, short] =
            [1, 2, 4, 8, 16].map(|bit| broken & bit > 0);
        let count = if too_many { 80 } else { 79 };
        let mut numbers = [0, 1, 900, 1_000, 0, 0, 0].repeat(count);
        if bad_record {
            numbers[7 * 40] = 3;
        }
        let mut costs = lent(&[0; 9]);
        costs[35] = u8::from(bad_cost);
        costs.extend(odd_length.then_some(0));
        let records = lent(&numbers);
        let rules = [
            odd_length.then_some((8, 0)),
            too_many.then_some((6, 0)),
            bad_cost.then_some((2, 0)),
            bad_record.then_some((3, 41)),
        ];
        let asked = Asked::Records(&records, &costs);
        let right = match rules.into_iter().flatten().next() {
            Some((number, carries)) => Err(Refusal::new(number, carries)),
            None => asked.oracle(Way::EveryLength),
        };
        let length = if short { 1_000 } else { 8_000 };
        if let Err(why) = asked.compare(&right, length) {
            panic!("{broken}: {why}");
        }
        compared += 1;
    }
    println!("{compared} compared");
}

/// The same for a sheet and a core: 9, the first bad line's, 1 for the core, 10; where the walk sticks
/// there is no refusal for that.
#[test]
fn refusal_order_of_cores() {
    let mut compared = 0;
    let stuck = format!("{GOOD}fit\tu\tp\n");
    let broken = broken_sheets().into_iter();
    let broken = broken.map(|(sheet, refusal)| (sheet, Some(refusal)));
    let others = [GOOD, &stuck].map(|sheet| (sheet.into(), None));
    let sheets: Vec<_> = broken.chain(others).collect();
    for (sheet, refusal) in &sheets {
        for core in [0, 1, 2, u64::MAX] {
            let asked = Asked::Core(sheet, core);
            let right = match refusal {
                Some(refusal) => Err(*refusal),
                None if core != 1 => Err(Refusal::new(1, 0)),
                None => asked.oracle(Way::EveryLength),
            };
            for length in [0, 10, 1_000] {
                if let Err(why) = asked.compare(&right, length) {
                    panic!("{asked}: {why}");
                }
                compared += 1;
            }
        }
    }
    println!("{compared} compared");
    assert_eq!(compared, 11 * 4 * 3);
}

/// The verdict that is named is the verdict, and an overload is shown at its own length: on the cases of
/// `tests/data/verdict` and where the busy length is the limit.
#[test]
fn verdicts_are_those_named() {
    let mut random = Random::for_test();
    let mut tally = Tally::default();
    let mut named = |records: &[u8], costs: &[u8]| {
        let asked = Asked::Records(records, costs);
        let said = tally.asked(asked, Way::Stretches, &mut random);
        let right = match verdict(records, costs).unwrap() {
            Answer::Passes => "why\tpasses\t".to_owned(),
            Answer::Overloaded(length) => format!("why\toverloaded\t{length}\t"),
            Answer::Undecided => "why\tundecided\t100000000\t0\n".to_owned(),
            Answer::Refused(refusal) => {
                assert_eq!(said, Err(refusal));
                return;
            }
        };
        let text = shown(&said.unwrap());
        assert!(text.starts_with(&right), "{text:?} is {right:?}");
    };
    for case in cases("verdict", ".out") {
        let file = |ending| bytes("verdict", &format!("{case}.{ending}"));
        named(&file("rec"), &file("cost"));
    }
    let periods = [894_756, 909_150, 901_297];
    for budgets in [
        [356_489, 138_719, 403_731],
        [356_489, 138_718, 403_732],
        [356_490, 138_718, 403_731],
    ] {
        let times: Vec<_> = budgets.into_iter().zip(periods).collect();
        let times: Vec<_> = times.into_iter().map(|(x, t)| (x, t, t)).collect();
        let core = whole_core(&times);
        named(&lent_records(&core), &lent_costs(&core));
    }
    println!("{tally}");
    assert!(tally.compared() == 46 && tally.passes > 8 && tally.undecided > 8);
}

/// The demand of K7, of refused records, and at lengths about the longest that is answered.
#[test]
fn demands() {
    let records = lent(&[0, 8, 10, 50, 0, 0, 0, 0, 1, 12, 50, 0, 0, 0]);
    let costs = lent(&[0, 0, 0, 4, 0, 0, 0, 0, 0]);
    let at = |length| demand_at(&records, &costs, length);
    let lengths = [0, 9, 10, 11, 12, 59, 60, 62];
    assert_eq!(lengths.map(at), [4, 4, 12, 12, 9, 9, 17, 18]);
    // 2,020,000 jobs of each
    assert_eq!(at(101_000_000), 9 * 2_020_000);
    let beyond = [101_000_001, 1 << 32, (1 << 32) + 12, u64::MAX];
    assert_eq!(beyond.map(at), [0; 4]);
    let refused = |records: &[u8], costs: &[u8]| {
        for length in [0, 1, 12, 1_000, 101_000_000, u64::MAX] {
            assert_eq!(demand_at(records, costs, length), 0, "{length}");
        }
    };
    refused(&[], &costs);
    refused(&records[1..], &costs);
    refused(&records, &costs[1..]);
    refused(&records.repeat(40), &costs);
    refused(&records, &[1; 36]);
    refused(&lent(&[3, 8, 10, 50, 0, 0, 0]), &costs);
    refused(&[records.clone(), vec![0; 28]].concat(), &costs);
    assert!(demand_at(&records.repeat(39), &costs, 12) == 39 * 9);
    // as much as there can be: each of 79 pieces has 102,000,000 jobs of 700,001 and as many releases
    let most = lent(&[1, 1, 1, 1, 1_000_000, 100_000, 100_000].repeat(79));
    let expected = 79 * 102_000_000 * (700_001 + 200_000);
    assert_eq!(
        demand_at(&most, &lent(&[100_000; 9]), 101_000_000),
        expected
    );
}
