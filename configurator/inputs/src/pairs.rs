//! Pairs of sheets that shrink: most are a sheet and the same with small changes, some have nothing to do
//! with each other, and some are damaged.

use std::fmt;

use proptest::collection::vec;
use proptest::option::weighted;
use proptest::prelude::*;
use proptest::sample::select;

use crate::sheets::{Sheet, SheetDraw, NAMES};
use crate::strategies::{charge, damage, drawn_sheets, Damaged};

/// A change to a sheet. Places count round from the beginning, so that every number is one; where a sheet
/// has nothing there, it stays as it is.
#[derive(Clone, Copy, Debug, PartialEq, Eq)]
pub enum Change {
    /// A task of that name comes before the one at a place, fitted with the part at another.
    Add(&'static str, u64, u64),
    /// The task at a place goes.
    Remove(u64),
    /// The task at a place moves to before another.
    Move(u64, u64),
    /// The tasks come the other way round.
    TurnRound,
    /// The task at a place gets another name.
    Rename(u64, &'static str),
    /// The task at a place is fitted with the part at another.
    Refit(u64, u64),
    /// Of the part at a place, one of C, D, T, J, P, M becomes another, or as near to it as
    /// 1 ≤ C ≤ D ≤ T lets it.
    Number(u64, usize, u64),
    /// The cores become that many.
    Cores(u64),
    /// The grain becomes that many times as long.
    Grain(u64),
    /// One of the nine costs becomes that.
    Cost(usize, u64),
}

impl Change {
    /// A sheet with this change.
    ///
    /// ```
    /// use inputs::pairs::Change;
    /// use inputs::sheets::Sheet;
    ///
    /// let sheet = Sheet {
    ///     cores: 1,
    ///     grain: 1,
    ///     costs: [0; 9],
    ///     parts: vec![("p".to_owned(), [1, 2, 3, 0, 0, 0])],
    ///     fits: vec![("t".to_owned(), "p".to_owned())],
    /// };
    /// let added = Change::Add("a", 2, 5).of(sheet.clone());
    /// assert_eq!(added.fits[0], ("a".to_owned(), "p".to_owned()));
    /// assert_eq!(Change::Number(0, 0, 9).of(sheet).parts[0].1, [2, 2, 3, 0, 0, 0]);
    /// ```
    #[must_use]
    #[allow(clippy::cast_possible_truncation)] // a place is below a length
    pub fn of(self, mut sheet: Sheet) -> Sheet {
        let (parts, fits) = (&mut sheet.parts, &mut sheet.fits);
        let place = |at: u64, length: usize| (at % length as u64) as usize;
        match self {
            Change::Add(name, at, part) if !parts.is_empty() => {
                let part = parts[place(part, parts.len())].0.clone();
                fits.insert(place(at, fits.len() + 1), (name.to_owned(), part));
            }
            Change::Remove(at) if !fits.is_empty() => {
                fits.remove(place(at, fits.len()));
            }
            Change::Move(at, before) if !fits.is_empty() => {
                let fit = fits.remove(place(at, fits.len()));
                fits.insert(place(before, fits.len() + 1), fit);
            }
            Change::TurnRound => fits.reverse(),
            Change::Rename(at, name) if !fits.is_empty() => {
                let at = place(at, fits.len());
                name.clone_into(&mut fits[at].0);
            }
            Change::Refit(at, part) if !fits.is_empty() && !parts.is_empty() => {
                let at = place(at, fits.len());
                fits[at].1.clone_from(&parts[place(part, parts.len())].0);
            }
            Change::Number(part, which, number) if !parts.is_empty() => {
                let part = place(part, parts.len());
                let times = &mut parts[part].1;
                let [budget, deadline, period, ..] = *times;
                times[which] = match which {
                    0 => number.clamp(1, deadline),
                    1 => number.clamp(budget, period),
                    2 => number.max(deadline),
                    _ => number,
                };
            }
            Change::Cores(cores) => sheet.cores = cores,
            Change::Grain(times) => sheet.grain *= times,
            Change::Cost(which, cost) => sheet.costs[which] = cost,
            _ => {}
        }
        sheet
    }
}

/// Two sheets, damaged or not.
#[derive(Clone, PartialEq, Eq)]
pub struct Pair {
    /// The first.
    pub first: Damaged,
    /// The second.
    pub second: Damaged,
}

impl Pair {
    /// The bytes of both.
    #[must_use]
    pub fn bytes(&self) -> [Vec<u8>; 2] {
        [self.first.bytes(), self.second.bytes()]
    }
}

impl fmt::Debug for Pair {
    fn fmt(&self, f: &mut fmt::Formatter<'_>) -> fmt::Result {
        write!(f, "first:\n{:?}\nsecond:\n{:?}", self.first, self.second)
    }
}

/// Draws of small sheets, most of which have room on enough cores.
pub const ROOMY: [SheetDraw; 5] = [
    SheetDraw::new(5, 12, 0, 0),
    SheetDraw::new(8, 40, 0, 2),
    SheetDraw::new(4, 150, 1, 3),
    SheetDraw::new(6, 400, 4, 8),
    SheetDraw::new(16, 250, 0, 1),
];

/// Pairs of sheets, most of them with as many cores as have room for all tasks; where times are long, with
/// a grain that leaves the oracle few splits to try. What comes first in the tuple shrinks first: a sheet
/// that has nothing to do with the first becomes a changed one.
pub fn pairs(draw: SheetDraw, grain: Option<u64>) -> BoxedStrategy<Pair> {
    let sheets = || drawn_sheets(draw, [6, 3, 1]);
    let harm = || prop_oneof![9 => Just(Vec::new()), 1 => vec(damage(), 1..=2)];
    let drawn = (
        weighted(0.15, sheets()),
        harm(),
        harm(),
        vec(change(draw), 0..=3),
        weighted(0.8, draw.cores..=16),
        sheets(),
    );
    let pairs = drawn.prop_map(move |(other, before, behind, changes, room, first)| {
        let roomy = |sheet: Sheet| Sheet {
            cores: room.unwrap_or(sheet.cores),
            grain: grain.unwrap_or(sheet.grain),
            ..sheet
        };
        let first = roomy(first);
        let mut second = other.map_or_else(|| first.clone(), roomy);
        for change in changes {
            second = change.of(second);
        }
        let damaged = |sheet, damages| Damaged { sheet, damages };
        Pair {
            first: damaged(first, before),
            second: damaged(second, behind),
        }
    });
    pairs.boxed()
}

/// A change. It may break a rule: a name may come twice, and a jitter leave no room.
fn change(draw: SheetDraw) -> impl Strategy<Value = Change> {
    let at = || 0..20_u64;
    let name = || select([&NAMES[..], &["t0", "t1", "t10", "t7"]].concat());
    prop_oneof![
        2 => (name(), at(), at()).prop_map(|(name, at, part)| Change::Add(name, at, part)),
        2 => at().prop_map(Change::Remove),
        2 => (at(), at()).prop_map(|(at, before)| Change::Move(at, before)),
        1 => Just(Change::TurnRound),
        2 => (at(), name()).prop_map(|(at, name)| Change::Rename(at, name)),
        2 => (at(), at()).prop_map(|(at, part)| Change::Refit(at, part)),
        2 => (at(), 0..3_usize, 1..=draw.period)
            .prop_map(|(part, which, number)| Change::Number(part, which, number)),
        1 => (at(), 0..=draw.jitter).prop_map(|(part, number)| Change::Number(part, 3, number)),
        2 => (at(), 4..6_usize, charge(draw))
            .prop_map(|(part, which, number)| Change::Number(part, which, number)),
        1 => (1..=16_u64).prop_map(Change::Cores),
        1 => (2..=6_u64).prop_map(Change::Grain),
        2 => (0..9_usize, charge(draw)).prop_map(|(which, cost)| Change::Cost(which, cost)),
    ]
}
