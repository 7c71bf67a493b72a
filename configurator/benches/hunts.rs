//! Searches for inputs that are slow: sheets with many candidates for a split, and cores with a long
//! climb to the busy length. Each keeps the worst found so far and changes it a little.

use std::fmt::Write as _;
use std::time::{Duration, Instant};

use inputs::Random;
use plain::piece::Costs;

use crate::counted::Lean;
use crate::sheets::{self, Lane, Sheet, Task};
use crate::tally::Counts;

/// Names for as many tasks as a hunted sheet may have.
const NAMES: [&[u8]; 8] = [b"t0", b"t1", b"t2", b"t3", b"t4", b"t5", b"t6", b"t7"];

/// A number up to `most`, each size as likely.
fn any_size(most: u64, random: &mut Random) -> u64 {
    let bits = 64 - most.leading_zeros();
    let size = random.between(0, u64::from(bits));
    random.between(0, (1 << size) - 1).min(most)
}

/// The times of a task: C ≤ D ≤ T.
fn times(random: &mut Random) -> [u64; 6] {
    let period = any_size(1_000_000, random).max(1);
    let deadline = match random.between(0, 2) {
        0 => random.between(1, period),
        _ => period,
    };
    let budget = match random.between(0, 2) {
        0 => any_size(deadline, random).max(1),
        _ => random.between(1, deadline),
    };
    let jitter = match random.between(0, 3) {
        0 => any_size(1_000, random),
        _ => 0,
    };
    let preempt = any_size(100, random) / 2;
    [budget, deadline, period, jitter, preempt, 0]
}

/// Times brought within their sizes.
fn within(times: [u64; 6]) -> [u64; 6] {
    let [budget, deadline, period, jitter, preempt, migrate] = times;
    let period = period.clamp(1, 1_000_000);
    let deadline = deadline.clamp(1, period);
    [
        budget.clamp(1, deadline),
        deadline,
        period,
        jitter.min(1_000_000),
        preempt.min(100_000),
        migrate,
    ]
}

/// The sheet's text.
fn text(sheet: &Sheet<'_>) -> String {
    let row = |numbers: &[u64]| -> String {
        let words: Vec<String> = numbers.iter().map(u64::to_string).collect();
        words.join("\t")
    };
    let mut text = format!("machine\t{}\t{}\n", sheet.cores, sheet.grain);
    let _ = writeln!(text, "cost\t{}", row(&sheet.costs.numbers()));
    for (place, task) in sheet.tasks.iter().enumerate() {
        let _ = writeln!(text, "part\tp{place}\t{}", row(&task.times));
    }
    for place in 0..sheet.tasks.len() {
        let _ = writeln!(text, "fit\tt{place}\tp{place}");
    }
    text
}

/// The most candidates in one search, and the sheet.
pub fn splits(time: Duration, random: &mut Random) -> (u64, String) {
    let start = Instant::now();
    let mut worst = (0, String::new());
    while start.elapsed() < time {
        // a new beginning, and then changes for as long as they make it worse
        let mut costs = [0; 9];
        for cost in &mut costs {
            if random.between(0, 1) == 0 {
                *cost = any_size(100_000, random);
            }
        }
        let tasks = random.between(2, 4);
        let mut now: (u64, [u64; 9], Vec<[u64; 6]>) =
            (0, costs, (0..tasks).map(|_| times(random)).collect());
        let mut failed = 0;
        while failed < 300 && start.elapsed() < time {
            let (_, mut costs, mut list) = now.clone();
            match random.between(0, 5) {
                0 => costs[random.between(0, 8) as usize] = any_size(100_000, random),
                1 => costs[random.between(0, 8) as usize] = 0,
                2 => {
                    let place = random.between(0, list.len() as u64 - 1) as usize;
                    list[place] = times(random);
                }
                _ => {
                    let place = random.between(0, list.len() as u64 - 1) as usize;
                    let field = random.between(0, 4) as usize;
                    let change = any_size(list[place][field] + 8, random);
                    let value = &mut list[place][field];
                    *value = if random.between(0, 1) == 0 {
                        value.saturating_sub(change)
                    } else {
                        *value + change
                    };
                    list[place] = within(list[place]);
                }
            }
            let sheet = Sheet {
                cores: 2,
                grain: 1,
                costs: Costs::from_numbers(costs),
                tasks: NAMES
                    .iter()
                    .zip(&list)
                    .map(|(&name, &times)| Task { name, times })
                    .collect(),
            };
            let mut lean = Lean::new(Counts::default());
            let _ = sheets::walk(&sheet, &mut lean);
            let most = lean.tally.candidates.iter().copied().max().unwrap_or(0);
            if most > worst.0 {
                worst = (most, format!("{:?}\n{}", lean.tally.settled, text(&sheet)));
            }
            failed = if most > now.0 { 0 } else { failed + 1 };
            if most >= now.0 {
                now = (most, costs, list);
            }
        }
    }
    worst
}

/// The most steps of one climb, and the budgets and periods.
pub fn climbs(time: Duration, random: &mut Random) -> (u64, Vec<(u64, u64)>) {
    let start = Instant::now();
    let mut worst = (0, Vec::new());
    while start.elapsed() < time {
        let mut now = (0, beginning(random));
        let mut failed = 0;
        while failed < 400 && start.elapsed() < time {
            let mut core = now.1.clone();
            let place = random.between(0, core.len() as u64 - 1) as usize;
            let (budget, period) = core[place];
            let change = any_size(period / 2 + 2, random);
            core[place] = match random.between(0, 5) {
                0 => (budget, period + 1),
                1 => (budget, period.saturating_sub(1)),
                2 => (budget, period + change),
                3 => (budget, period.saturating_sub(change)),
                4 => (budget + 1, period),
                _ => (budget.saturating_sub(1), period),
            };
            if random.between(0, 20) == 0 {
                fill(&mut core, random);
            }
            for piece in &mut core {
                piece.1 = piece.1.clamp(1, 1_000_000);
                piece.0 = piece.0.clamp(1, piece.1);
            }
            let lanes: Vec<Lane> = core
                .iter()
                .map(|&(budget, period)| {
                    let fields = [budget, period, period, 0, 0, 0];
                    Lane::of(&Costs::default(), 0, &fields)
                })
                .collect();
            let mut lean = Lean::new(Counts::default());
            let _ = lean.busy_length(&lanes);
            let steps = lean.tally.climbs;
            if steps > worst.0 {
                worst = (steps, core.clone());
            }
            failed = if steps > now.0 { 0 } else { failed + 1 };
            if steps >= now.0 {
                now = (steps, core);
            }
        }
    }
    worst
}

/// A core that takes up nearly all time.
fn beginning(random: &mut Random) -> Vec<(u64, u64)> {
    let pieces = random.between(3, 12);
    let mut core: Vec<(u64, u64)> = (0..pieces)
        .map(|_| {
            let period = 1 + any_size(5_000, random) + pieces;
            (1 + any_size(period / pieces, random) / 2, period)
        })
        .collect();
    fill(&mut core, random);
    core
}

/// Gives the last piece, with a long period, about what the others leave.
fn fill(core: &mut Vec<(u64, u64)>, random: &mut Random) {
    let _ = core.pop();
    let used: f64 = core.iter().map(|&(c, t)| c as f64 / t as f64).sum();
    let left = 1.0 - used;
    let budget = any_size(100, random).max(1);
    let period = if left > 1e-6 {
        (budget as f64 / left).ceil() as u64 + random.between(0, 1)
    } else {
        1_000_000
    };
    core.push((budget, period));
}
