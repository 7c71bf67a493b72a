//! The library's verdict on document 01's numbered examples, on table IV of document 001 and on the
//! cases of `tests/data/verdict`.

#![warn(clippy::all, clippy::pedantic)]

mod common;

use common::answer;
use common::compare::Tally;
use configurator::{Answer, Refusal};
use inputs::cores::{lent_costs, lent_records, piece, whole_core, Times};
use inputs::{bytes, cases, Random};
use plain::demand::Core;
use plain::piece::{Costs, Kind};
use plain::{records, verdict};

/// The library's answer and the oracle's, both as expected.
fn expect(name: &str, core: &Core, expected: Answer) {
    let (records, costs) = (lent_records(core), lent_costs(core));
    assert_eq!(
        configurator::verdict(&records, &costs),
        Ok(expected),
        "{name}"
    );
    let oracle = records::judge(&records, &costs).map(answer);
    assert_eq!(oracle, Ok(expected), "{name}, oracle");
}

#[test]
fn numbered_examples() {
    let ipb = Costs {
        ipb: 4,
        ..Costs::default()
    };
    let k8_costs = Costs {
        relo: 2,
        tseto: 1,
        schedo: 3,
        ipb: 4,
        ..Costs::default()
    };
    let fours = [(2, 10, 10); 4];
    let k5 = [&fours[..], &[(2, 2, 10)]].concat();
    let k6 = [&fours[..], &[(3, 3, 10)]].concat();
    let k7 = Core {
        costs: ipb,
        ..whole_core(&[(8, 10, 50), (1, 12, 50)])
    };
    let k8 = Core {
        costs: k8_costs,
        ..whole_core(&[(5, 100, 100)])
    };
    let mut k11 = whole_core(&[(1, 5, 10)]);
    k11.pieces[0].jitter = 5;

    expect("K1", &whole_core(&[]), Answer::Passes);
    expect("K2", &whole_core(&[(1, 1, 1)]), Answer::Passes);
    expect("K3", &whole_core(&[(5, 5, 10); 2]), Answer::Overloaded(9));
    expect("K4", &whole_core(&[(6, 10, 10); 2]), Answer::Undecided);
    expect("K5", &whole_core(&k5), Answer::Passes);
    expect("K6", &whole_core(&k6), Answer::Undecided);
    expect("K7", &k7, Answer::Overloaded(11));
    expect("K8", &k8, Answer::Passes);
    assert_eq!((k8.busy_length(), k8.demand(100)), (Some(15), 15), "K8");
    expect("K11", &k11, Answer::Overloaded(0));
    println!("9 compared");
}

/// Document 001's three processors: every core of the derived task set passes.
#[test]
fn table_iv() {
    use Kind::{First, Last, Whole};
    let processors: [&[(Kind, Times)]; 3] = [
        &[
            (First, (5, 5, 16)),
            (Whole, (14, 40, 40)),
            (Whole, (16, 48, 48)),
        ],
        &[
            (First, (1, 1, 12)),
            (Whole, (9, 20, 20)),
            (Whole, (6, 15, 15)),
            (Last, (1, 11, 16)),
        ],
        &[(Whole, (5, 10, 10)), (Last, (5, 11, 12))],
    ];
    for (number, pieces) in (1..).zip(processors) {
        let core = Core {
            costs: Costs::default(),
            pieces: pieces
                .iter()
                .map(|&(kind, times)| piece(kind, times))
                .collect(),
        };
        expect(&format!("processor {number}"), &core, Answer::Passes);
    }
    println!("3 compared");
}

/// The busy length may be the limit, 100,000,000, and no more.
#[test]
fn busy_length_limit() {
    let periods = [894_756, 909_150, 901_297];
    let core = |budgets: [u64; 3]| {
        let times: Vec<Times> = budgets
            .iter()
            .zip(periods)
            .map(|(&x, t)| (x, t, t))
            .collect();
        whole_core(&times)
    };
    let below = core([356_489, 138_719, 403_731]);
    let at = core([356_489, 138_718, 403_732]);
    let above = core([356_490, 138_718, 403_731]);
    let common_multiple = whole_core(&[(79_872, 160_000, 160_000), (195_625, 390_625, 390_625)]);
    assert_eq!(below.busy_length(), Some(99_999_999));
    assert_eq!(at.busy_length(), Some(100_000_000));
    assert_eq!(above.busy_length(), None);
    assert_eq!(common_multiple.busy_length(), Some(100_000_000));
    let mut random = Random::for_test();
    let mut tally = Tally::default();
    for core in [below, at, above, common_multiple] {
        tally.core(&core, &mut random);
    }
    assert_eq!((tally.passes, tally.undecided), (3, 1));
    println!("{tally}");
}

/// The answer that a case's `.out` file states.
fn stated(out: &str) -> Answer {
    let fields: Vec<&str> = out.trim_end_matches('\n').split('\t').collect();
    match fields[..] {
        ["passes"] => Answer::Passes,
        ["overloaded", length] => Answer::Overloaded(length.parse().unwrap()),
        ["undecided"] => Answer::Undecided,
        ["refusal", number, carries] => Answer::Refused(Refusal::new(
            number.parse().unwrap(),
            carries.parse().unwrap(),
        )),
        _ => panic!("{out:?} states no answer"),
    }
}

#[test]
fn cases_with_stated_answers() {
    let mut random = Random::for_test();
    let mut tally = Tally::default();
    for case in cases("verdict", ".out") {
        let records = bytes("verdict", &format!("{case}.rec"));
        let costs = bytes("verdict", &format!("{case}.cost"));
        let out = String::from_utf8(bytes("verdict", &format!("{case}.out"))).unwrap();
        let expected = stated(&out);
        assert_eq!(
            configurator::verdict(&records, &costs),
            Ok(expected),
            "{case}"
        );
        if let Ok(core) = records::read(&records, &costs) {
            let oracle = answer(verdict::by_stretches(&core));
            assert_eq!(oracle, expected, "{case}, oracle");
        }
        tally.bytes(&records, &costs, &mut random);
    }
    assert!(tally.compared() >= 43, "the cases are there");
    println!("{tally}");
}
