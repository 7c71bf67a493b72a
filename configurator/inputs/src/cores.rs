//! Cores for the tests: by hand, at random, and as the bytes that the library is lent.

use plain::demand::Core;
use plain::piece::{Costs, Kind, Piece};

use crate::random::Random;

/// Budget, window and period, as document 01 writes its examples: (x, D, T).
pub type Times = (u64, u64, u64);

/// A piece with no jitter and no cache charges.
#[must_use]
pub fn piece(kind: Kind, (budget, window, period): Times) -> Piece {
    Piece {
        kind,
        budget,
        window,
        period,
        jitter: 0,
        preemption: 0,
        migration: 0,
    }
}

/// A core of whole pieces without costs.
#[must_use]
pub fn whole_core(pieces: &[Times]) -> Core {
    Core {
        costs: Costs::default(),
        pieces: pieces
            .iter()
            .map(|&times| piece(Kind::Whole, times))
            .collect(),
    }
}

/// Numbers as lent: four bytes each, lowest first.
///
/// # Panics
///
/// A number needs more than four bytes.
#[must_use]
pub fn lent(numbers: &[u64]) -> Vec<u8> {
    numbers
        .iter()
        .flat_map(|&number| u32::try_from(number).unwrap().to_le_bytes())
        .collect()
}

/// The numbers of a piece's record.
#[must_use]
pub fn record(p: &Piece) -> [u64; 7] {
    let kind = match p.kind {
        Kind::Whole => 0,
        Kind::First => 1,
        Kind::Last => 2,
    };
    [
        kind,
        p.budget,
        p.window,
        p.period,
        p.jitter,
        p.preemption,
        p.migration,
    ]
}

/// The records of a core as lent.
#[must_use]
pub fn lent_records(core: &Core) -> Vec<u8> {
    core.pieces.iter().flat_map(|p| lent(&record(p))).collect()
}

/// The costs of a core as lent.
#[must_use]
pub fn lent_costs(core: &Core) -> Vec<u8> {
    lent(&core.costs.numbers())
}

/// Numbers that a damaged field may hold: about the sizes, and where a byte begins or ends.
pub const NUMBERS: [u64; 22] = [
    0,
    1,
    2,
    3,
    255,
    256,
    65_535,
    65_536,
    99_999,
    100_000,
    100_001,
    999_999,
    1_000_000,
    1_000_001,
    16_777_215,
    16_777_216,
    99_999_999,
    100_000_000,
    2_147_483_647,
    2_147_483_648,
    4_294_967_294,
    4_294_967_295,
];

/// Damages lent bytes by chance: one is changed, dropped or doubled, the end is cut off, or a number
/// becomes another.
pub fn damage(bytes: &mut Vec<u8>, random: &mut Random) {
    if bytes.is_empty() {
        bytes.push(random.byte());
        return;
    }
    let at = random.place(bytes.len());
    match random.between(1, 8) {
        1 => {
            bytes.remove(at);
        }
        2 => bytes.insert(at, bytes[at]),
        3 => bytes.truncate(at),
        4 => bytes[at] = random.byte(),
        5 => bytes[at] ^= 1 << random.place(8),
        6 | 7 => bytes[at / 4 * 4] = random.byte(),
        _ => {
            let field = at / 4 * 4;
            let number = random.pick(&NUMBERS);
            bytes[field..field + 4].copy_from_slice(&lent(&[number]));
        }
    }
}

/// How random cores are drawn. About half of all jitters, charges and costs are 0 anyway.
#[derive(Clone, Copy)]
pub struct Draw {
    /// The most pieces.
    pub pieces: u64,
    /// The longest period.
    pub period: u64,
    /// The most that a jitter is, in hundredths of the period.
    pub jitter: u64,
    /// The most that a cost or a cache charge is.
    pub cost: u64,
}

impl Draw {
    /// A draw by its numbers: pieces, period, jitter, cost.
    #[must_use]
    pub const fn new(pieces: u64, period: u64, jitter: u64, cost: u64) -> Self {
        Draw {
            pieces,
            period,
            jitter,
            cost,
        }
    }

    /// A core with up to that many pieces and a load from light to more than full.
    pub fn core(&self, random: &mut Random) -> Core {
        let costs = Costs::from_numbers([0; 9].map(|_: u64| self.charge(random)));
        let count = random.between(0, self.pieces);
        let load = random.between(30, 115);
        let pieces = (0..count)
            .map(|_| self.piece(count, load, &costs, random))
            .collect();
        Core { costs, pieces }
    }

    /// A piece for a core of that many and a load in hundredths: budget and charges take on average
    /// its share of the period. The window is the period, or anything, or about the budget.
    fn piece(&self, count: u64, load: u64, costs: &Costs, random: &mut Random) -> Piece {
        let kind = random.pick(&[Kind::Whole, Kind::First, Kind::Last]);
        let period = random.between(1, self.period);
        let charges = 3 * (costs.schedo + costs.tseto) + costs.relo + costs.ipio;
        let share = (2 * period * load / 100 / count).saturating_sub(charges);
        let budget = random.between(1, share.clamp(1, period));
        let window = match random.between(1, 3) {
            1 => period,
            2 => random.between(budget, period),
            _ => random.between(budget, period.min(budget + charges + period / 8)),
        };
        let jitter = if random.once_in(2) {
            0
        } else {
            random.between(0, period * self.jitter / 100)
        };
        Piece {
            kind,
            budget,
            window,
            period,
            jitter: jitter.min(1_000_000),
            preemption: self.charge(random),
            migration: self.charge(random),
        }
    }

    /// A cost or a cache charge.
    fn charge(&self, random: &mut Random) -> u64 {
        if random.once_in(2) {
            0
        } else {
            random.between(0, self.cost)
        }
    }
}

/// A budget and a period for a part of what is left of some cores, in sixtieths of one, which is then
/// taken away. There must be something left.
pub fn share_of(left: &mut u64, random: &mut Random) -> (u64, u64) {
    loop {
        let period = random.pick(&[5, 6, 10, 12, 15, 20, 30, 60]);
        let tick = 60 / period;
        if tick <= *left {
            let budget = random.between(1, (*left / tick).min(period));
            *left -= budget * tick;
            return (budget, period);
        }
    }
}

/// A core without costs whose budgets fill it, give or take a sixtieth of it.
pub fn full_load(random: &mut Random) -> Core {
    let mut left = 60; // sixtieths of the core
    let mut pieces = Vec::new();
    while left > 0 {
        let (budget, period) = share_of(&mut left, random);
        let window = if random.once_in(3) {
            random.between(budget, period)
        } else {
            period
        };
        pieces.push(piece(Kind::Whole, (budget, window, period)));
    }
    if random.once_in(8) {
        pieces.push(piece(Kind::Last, (1, 60, 60)));
    }
    Core {
        costs: Costs::default(),
        pieces,
    }
}

/// Every pair of pieces with periods up to 3 and jitters up to 4, under costs of 0 and 1.
pub fn tiny_pairs() -> impl Iterator<Item = Core> {
    let mut tiny = Vec::new();
    for kind in [Kind::Whole, Kind::First, Kind::Last] {
        for period in 1..=3 {
            for window in 1..=period {
                for budget in 1..=window {
                    for jitter in [0, 1, 2, 4] {
                        let free = piece(kind, (budget, window, period));
                        tiny.push(Piece { jitter, ..free });
                    }
                }
            }
        }
    }
    let costs = [
        [0, 0, 0, 0, 0, 0, 0, 0, 0],
        [0, 0, 0, 1, 0, 0, 0, 0, 0],
        [0, 0, 0, 0, 0, 0, 1, 2, 0],
    ];
    let pairs = tiny.len() * tiny.len();
    costs.into_iter().flat_map(move |costs| {
        let tiny = tiny.clone();
        (0..pairs).map(move |pair| Core {
            costs: Costs::from_numbers(costs),
            pieces: vec![tiny[pair / tiny.len()], tiny[pair % tiny.len()]],
        })
    })
}
