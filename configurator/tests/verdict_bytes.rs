//! The library's verdict against the oracle on byte strings of every length, on damaged ones, and at
//! the sizes: document 01's refusals 8, 6, 2 and 3 in this order.

#![warn(clippy::all, clippy::pedantic)]

mod common;

use common::compare::Tally;
use configurator::{verdict, Answer, Refusal};
use inputs::cores::{damage, lent, lent_costs, lent_records, Draw, NUMBERS};
use inputs::Random;
use plain::records::{self, COST_BYTES, RECORDS_MOST, RECORD_BYTES};

/// A record within the sizes, and light, so that many fit on a core.
const LIGHT: [u64; 7] = [0, 1, 900, 1_000, 0, 0, 0];

/// A run of that many records of one kind.
fn run(record: [u64; 7], count: usize) -> Vec<u8> {
    lent(&record.repeat(count))
}

/// Bytes of any value.
fn noise(length: usize, random: &mut Random) -> Vec<u8> {
    (0..length).map(|_| random.byte()).collect()
}

/// Records of every length up to 2300 and some longer, beside whole and damaged costs.
#[test]
fn every_length_of_records() {
    let mut random = Random::for_test();
    let mut tally = Tally::default();
    let whole = run(LIGHT, 120);
    let free = vec![0; COST_BYTES];
    for length in (0..=2300).chain([2_267, 2_268, 2_269, 2_799, 2_800, 2_801, 3_360]) {
        tally.bytes(&whole[..length], &free, &mut random);
        tally.bytes(&noise(length, &mut random), &free, &mut random);
        tally.bytes(&vec![0; length], &free, &mut random);
        tally.bytes(
            &whole[..length],
            &noise(COST_BYTES, &mut random),
            &mut random,
        );
        let other_length = random.place(81);
        tally.bytes(
            &whole[..length],
            &noise(other_length, &mut random),
            &mut random,
        );
        let part = length.min(RECORD_BYTES * RECORDS_MOST);
        let mut broken = whole[..part].to_vec();
        if let Some(last) = broken.len().checked_sub(RECORD_BYTES / 2) {
            broken[last] = 255;
        }
        tally.bytes(&broken, &free, &mut random);
    }
    println!("{tally}");
    assert!(tally.passes > 70 && tally.refused > 10_000);
}

#[test]
fn every_length_of_costs() {
    let mut random = Random::for_test();
    let mut tally = Tally::default();
    let bad_kind = [9, 1, 1, 1, 0, 0, 0];
    for length in 0..=80 {
        for records in [
            vec![],
            run(LIGHT, 1),
            run(LIGHT, 79),
            run(LIGHT, 80),
            run(bad_kind, 1),
            vec![0; 27],
        ] {
            tally.bytes(&records, &vec![0; length], &mut random);
            tally.bytes(&records, &vec![255; length], &mut random);
            tally.bytes(&records, &noise(length, &mut random), &mut random);
        }
    }
    println!("{tally}");
    assert_eq!(tally.compared(), 81 * 6 * 3);
}

/// Kinds 0, 1 and 2 are whole, first and last; every other is outside the sizes, also one that is
/// 0, 1 or 2 in its lowest byte alone.
#[test]
fn every_kind() {
    let mut random = Random::for_test();
    let mut tally = Tally::default();
    let costs = lent(&[1, 1, 1, 3, 4, 5, 2, 7, 0]);
    let mut seen = Vec::new();
    for kind in (0..=4).chain(NUMBERS).chain([257, 258, 65_537, 131_072]) {
        for place in [1, 2, 40, 79] {
            let mut numbers = LIGHT.repeat(79);
            numbers[7 * (place - 1)] = kind;
            let records = &lent(&numbers)[..RECORD_BYTES * place];
            tally.bytes(records, &costs, &mut random);
            if kind > 2 {
                let refusal = Refusal::new(3, u32::try_from(place).unwrap());
                assert_eq!(verdict(records, &costs), Ok(Answer::Refused(refusal)));
            }
        }
        // one piece whose kind decides: a first is charged 12 more, a last 20 more and its IPIs
        seen.push(verdict(&lent(&[kind, 60, 72, 400, 0, 0, 20]), &costs));
    }
    println!("{tally}");
    assert_ne!(seen[0], seen[1]);
    assert_ne!(seen[1], seen[2]);
    assert_ne!(seen[0], seen[2]);
}

/// Each field of a record at, about and past its size, in records of several shapes and at several
/// places.
#[test]
fn every_field_at_its_size() {
    let mut random = Random::for_test();
    let mut tally = Tally::default();
    let shapes = [
        LIGHT,
        [1, 1, 1, 1, 0, 0, 0],
        [2, 3, 5, 7, 1, 1, 1],
        [0, 1, 1_000_000, 1_000_000, 0, 0, 0],
        [2, 1, 1_000_000, 1_000_000, 1_000_000, 100_000, 100_000],
        [1, 1_000_000, 1_000_000, 1_000_000, 0, 0, 0],
        [0, 500, 500, 1_000_000, 499, 3, 3],
    ];
    for costs in [[0; 9], [0, 0, 0, 0, 0, 0, 0, 0, 100_000], [100_000; 9]] {
        for shape in shapes {
            for field in 0..7 {
                let near = shape.iter().flat_map(|&n| [n.saturating_sub(1), n, n + 1]);
                for number in near.chain(NUMBERS) {
                    for before in [0, 1, 78] {
                        let mut numbers = LIGHT.repeat(before);
                        numbers.extend(shape);
                        numbers[7 * before + field] = number;
                        tally.bytes(&lent(&numbers), &lent(&costs), &mut random);
                    }
                }
            }
        }
    }
    println!("{tally}");
    assert!(tally.passes > 500 && tally.overloaded > 500 && tally.refused > 500);
}

/// Each cost at, about and past its size, over no records, good ones and bad ones.
#[test]
fn every_cost_at_its_size() {
    let mut random = Random::for_test();
    let mut tally = Tally::default();
    let runs = [
        vec![],
        run(LIGHT, 2),
        run([2, 10, 500_000, 1_000_000, 5, 6, 7], 1),
        run([1, 10, 500_000, 1_000_000, 5, 6, 7], 1),
        run([0, 0, 0, 0, 0, 0, 0], 1),
        run(LIGHT, 79),
        run(LIGHT, 80),
    ];
    for field in 0..9 {
        for number in NUMBERS {
            for others in [0, 1, 100_000, 100_001] {
                let mut costs = [others; 9];
                costs[field] = number;
                for records in &runs {
                    tally.bytes(records, &lent(&costs), &mut random);
                }
            }
        }
    }
    println!("{tally}");
    assert!(tally.passes > 100 && tally.refused > 1_000);
}

/// Where several rules are broken the first of 8, 6, 2 and 3 is given: every choice of an odd length of
/// the records and of the costs, too many records and a bad cost, each with bad records from a place
/// on or without.
#[test]
fn refusal_order() {
    let mut compared = 0;
    for broken in 0..16 {
        let [odd_records, odd_costs, too_many, bad_cost] = [1, 2, 4, 8].map(|bit| broken & bit > 0);
        for bad_from in [None, Some(1), Some(40), Some(79)] {
            let count = if too_many { 80 } else { 79 };
            let mut numbers = LIGHT.repeat(count);
            for place in bad_from.unwrap_or(count + 1)..=count {
                numbers[7 * (place - 1) + 1] = 0;
            }
            let mut records = lent(&numbers);
            let mut costs = vec![0; COST_BYTES];
            costs[35] = u8::from(bad_cost);
            records.extend(odd_records.then_some(0));
            costs.extend(odd_costs.then_some(0));
            let rules = [
                (odd_records || odd_costs).then_some((8, 0)),
                too_many.then_some((6, 0)),
                bad_cost.then_some((2, 0)),
                bad_from.map(|place| (3, u32::try_from(place).unwrap())),
            ];
            let first = rules.into_iter().flatten().next();
            let expected = first.map_or(Answer::Passes, |(number, carries)| {
                Answer::Refused(Refusal::new(number, carries))
            });
            assert_eq!(verdict(&records, &costs), Ok(expected));
            compared += 1;
        }
    }
    println!("{compared} compared");
}

/// Random cores with a byte changed, dropped or doubled, or with the end cut off.
#[test]
fn damaged_cores() {
    let mut random = Random::for_test();
    let mut tally = Tally::default();
    let draw = Draw::new(6, 700, 50, 8);
    for _ in 0..30_000 {
        let core = draw.core(&mut random);
        let mut records = lent_records(&core);
        let mut costs = lent_costs(&core);
        if random.once_in(4) {
            damage(&mut costs, &mut random);
        } else {
            damage(&mut records, &mut random);
        }
        tally.bytes(&records, &costs, &mut random);
    }
    println!("{tally}");
    assert!(tally.refused > 5_000 && tally.passes > 1_000 && tally.overloaded > 1_000);
}

/// The same answer wherever in memory the bytes begin.
#[test]
fn bytes_at_any_address() {
    let mut random = Random::for_test();
    let mut compared = 0;
    let draw = Draw::new(5, 40, 50, 2);
    for _ in 0..500 {
        let core = draw.core(&mut random);
        let (records, costs) = (lent_records(&core), lent_costs(&core));
        let answer = verdict(&records, &costs);
        for shift in 1..8 {
            let shifted_records = [noise(shift, &mut random), records.clone()].concat();
            let shifted_costs = [noise(8 - shift, &mut random), costs.clone()].concat();
            assert_eq!(
                verdict(&shifted_records[shift..], &shifted_costs[8 - shift..]),
                answer
            );
            compared += 1;
        }
    }
    println!("{compared} compared");
}

/// The record that a piece is turned into for the library reads back as that piece.
#[test]
fn records_read_back() {
    let mut random = Random::for_test();
    let draw = Draw::new(79, 1_000_000, 100, 100_000);
    for _ in 0..200 {
        let core = draw.core(&mut random);
        let read = records::read(&lent_records(&core), &lent_costs(&core));
        assert_eq!(read, Ok(core));
    }
    println!("200 compared");
}
