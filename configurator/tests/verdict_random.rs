//! The library's verdict against the oracle on random cores, and on all pairs of tiny pieces.

#![warn(clippy::all, clippy::pedantic)]

mod common;

use common::compare::Tally;
use inputs::cores::{full_load, tiny_pairs, Draw};
use inputs::{rounds, Random};

/// Compares that many random cores of each draw. Each kind of verdict must come up now and then, so
/// that the draws are worth something.
fn compare(draws: &[Draw], each: u64) {
    let mut random = Random::for_test();
    let mut tally = Tally::default();
    for draw in draws {
        for _ in 0..rounds(each) {
            let core = draw.core(&mut random);
            tally.core(&core, &mut random);
        }
    }
    println!("{tally}");
    let least = tally.compared() / 50;
    assert!(tally.passes >= least && tally.overloaded >= least && tally.undecided >= least);
    assert_eq!(tally.refused, 0);
}

#[test]
fn small_cores_without_costs() {
    compare(&[Draw::new(5, 12, 0, 0), Draw::new(7, 60, 0, 0)], 8_000);
}

#[test]
fn small_cores_with_jitter() {
    compare(&[Draw::new(5, 12, 30, 0), Draw::new(5, 60, 220, 0)], 8_000);
}

#[test]
fn small_cores_with_costs() {
    compare(&[Draw::new(4, 40, 0, 2), Draw::new(6, 200, 0, 6)], 8_000);
}

#[test]
fn small_cores_with_costs_and_jitter() {
    compare(&[Draw::new(4, 40, 25, 2), Draw::new(6, 200, 120, 6)], 8_000);
}

#[test]
fn many_pieces() {
    compare(&[Draw::new(79, 900, 10, 1)], 1_500);
}

/// Spans too long to look at every length: compared by certificates.
#[test]
fn long_spans() {
    let machine = Draw::new(8, 50_000, 10, 100);
    let slow = Draw::new(10, 1_000_000, 5, 2_000);
    let mixed = Draw::new(20, 1_000_000, 100, 100_000);
    compare(&[machine, slow, mixed], 1_000);
}

/// A full load, where the busy length goes to the least common multiple of the periods and one tick
/// more is undecided.
#[test]
fn full_loads() {
    let mut random = Random::for_test();
    let mut tally = Tally::default();
    for _ in 0..rounds(6_000) {
        let core = full_load(&mut random);
        tally.core(&core, &mut random);
    }
    println!("{tally}");
    assert!(tally.passes > 1_000 && tally.overloaded > 1_000 && tally.undecided > 100);
}

#[test]
fn all_pairs_of_tiny_pieces() {
    let mut random = Random::for_test();
    let mut tally = Tally::default();
    for core in tiny_pairs() {
        tally.core(&core, &mut random);
    }
    println!("{tally}");
}
