//! The demand g(t) of a core of a sheet, for drawings: what the proved library's `demand_at` answers for
//! the core's records. No formula of the demand stands here, and steps are found by asking.
//!
//! The records are put together from the listing's pieces and the sheet's T, P and M. That they are the
//! core which a why listing is about is looked at: `why_records` must answer the same figures for them.

use crate::listing::{Kind, Listing, Piece};
use crate::quoted::{number, Part, Sheet};
use crate::why::{Share, Verdict, Why};
use crate::{demand_at, plan, why_records, UnknownNumber};

/// The most steps of a staircase that is drawn as it is.
const STEPS: usize = 240;

/// How many lengths a staircase with more steps is drawn by.
const LENGTHS: u64 = 400;

/// A core, as the library is lent it.
#[derive(Clone, Debug, PartialEq, Eq)]
pub struct Core {
    records: Vec<u8>,
    costs: Vec<u8>,
    /// The largest window: the demand can fall there, and nowhere else.
    pub largest_window: u64,
    /// The least window less its jitter: within a shorter length no job is due, and none is judged.
    pub first_due: u64,
}

/// What is asked for within lengths of time: from each length to the next the demand that stands beside
/// it.
#[derive(Clone, Debug, PartialEq, Eq)]
pub struct Stairs {
    /// Lengths, from 0 on, each with the demand there.
    pub steps: Vec<(u64, u64)>,
    /// Every step is there; else the lengths are evenly spaced, and the named one is among them.
    pub whole: bool,
}

impl Core {
    /// The core of these pieces. Nothing where the sheet has no part for one of them.
    fn of<'a>(pieces: impl IntoIterator<Item = Piece<'a>>, sheet: &Sheet) -> Option<Self> {
        let costs: Option<Vec<u32>> = sheet.costs.into_iter().map(number).collect();
        let mut core = Core {
            records: Vec::new(),
            costs: lent(&costs?),
            largest_window: 0,
            first_due: u64::MAX,
        };
        for piece in pieces {
            let [_, _, t, _, p, m] = times(sheet.part_of(piece.task)?)?;
            let (window, jitter) = (piece.window, piece.jitter);
            let record = [piece.kind.number(), piece.budget, window, t, jitter, p, m];
            core.records.extend(lent(&record));
            core.largest_window = core.largest_window.max(window.into());
            core.first_due = core.first_due.min(window.saturating_sub(jitter).into());
        }
        Some(core)
    }

    /// A core of a plan, from 1. Nothing if it is not the core that the why listing is about.
    ///
    /// # Errors
    ///
    /// The library answers a number that stands for nothing, which a proved library never does.
    pub fn planned(
        core: usize,
        listing: &Listing,
        sheet: &Sheet,
        why: &Why,
    ) -> Result<Option<Self>, UnknownNumber> {
        Core::of(listing.on_core(core).copied(), sheet).map_or(Ok(None), |core| core.shown(why))
    }

    /// The last core of a sheet with no room, with the whole task added that the walk stuck at: what a
    /// plan of the tasks ahead of that one has on it, and the task. Nothing if it is not the core that the
    /// why listing is about.
    ///
    /// # Errors
    ///
    /// The library answers a number that stands for nothing, which a proved library never does.
    pub fn stuck(sheet: &Sheet, why: &Why) -> Result<Option<Self>, UnknownNumber> {
        let ahead = why
            .stuck
            .and_then(|stuck| Some((stuck, ahead(sheet, stuck.task)?)));
        let (stuck, ahead) = match ahead {
            Some(found) => found,
            None => return Ok(None),
        };
        let listing = plan(ahead.as_bytes())?.unwrap_or_default();
        let pieces = Listing::parse(&listing).and_then(|listing| {
            let mut pieces: Vec<Piece> = listing.on_core(stuck.core).copied().collect();
            pieces.push(whole(sheet, stuck.task, stuck.core)?);
            Core::of(pieces, sheet)
        });
        pieces.map_or(Ok(None), |core| core.shown(why))
    }

    /// The core itself, if the library has the same figures for its records as a why listing has.
    fn shown(self, why: &Why) -> Result<Option<Self>, UnknownNumber> {
        let listing = why_records(&self.records, &self.costs)?.unwrap_or_default();
        let same = Why::parse(&listing).map_or(false, |own| {
            let figures = |share: &Share| (share.kind, share.jobs, share.demand, share.interrupts);
            let shares = own.shares.iter().map(figures);
            (own.verdict, own.length, own.blocking) == (why.verdict, why.length, why.blocking)
                && own.sum == why.sum
                && shares.eq(why.shares.iter().map(figures))
        });
        let total = why.sum.map_or(0, |sum| sum.total);
        let drawn = why.verdict == Verdict::Undecided || self.at(why.length) == total;
        Ok((same && drawn).then_some(self))
    }

    /// The demand within a length.
    #[must_use]
    pub fn at(&self, length: u64) -> u64 {
        demand_at(&self.records, &self.costs, length)
    }

    /// The demand within every length up to `end`. The one that is named is looked at in any case.
    #[must_use]
    pub fn stairs(&self, end: u64, named: u64) -> Stairs {
        let at = |length| (length, self.at(length));
        let fall = self.largest_window.clamp(1, end + 1);
        let mut steps = vec![at(0)];
        let mut whole = self.climb(at(0), at(fall - 1), &mut steps);
        if whole && fall <= end {
            steps.push(at(fall));
            whole = self.climb(at(fall), at(end), &mut steps);
        }
        if !whole {
            let apart = usize::try_from((end / LENGTHS).max(1)).unwrap_or(usize::MAX);
            steps = (0..=end).step_by(apart).map(at).collect();
            steps.extend((named <= end).then(|| at(named)));
            steps.sort_unstable();
            steps.dedup();
        }
        Stairs { steps, whole }
    }

    /// Finds the steps behind one length up to another, between which the demand does not fall: where it
    /// is the same at both ends, there is none. Whether they are few enough.
    fn climb(&self, from: (u64, u64), to: (u64, u64), steps: &mut Vec<(u64, u64)>) -> bool {
        if from.1 == to.1 {
            return true;
        }
        if to.0 - from.0 <= 1 {
            steps.push(to);
            return steps.len() <= STEPS;
        }
        let middle = from.0 + (to.0 - from.0) / 2;
        let middle = (middle, self.at(middle));
        self.climb(from, middle, steps) && self.climb(middle, to, steps)
    }
}

/// The same sheet with the tasks alone that stand ahead of one in packing order: greater C/D, or equal
/// and further up.
fn ahead(sheet: &Sheet, task: &str) -> Option<String> {
    let density = |task: &str| {
        let [c, d, ..] = times(sheet.part_of(task)?)?;
        Some((u64::from(c), u64::from(d)))
    };
    let (c, d) = density(task)?;
    let place = sheet.fits.iter().position(|fit| fit.task == task)?;
    let mut ahead = sheet.clone();
    ahead.fits.clear();
    for (at, fit) in sheet.fits.iter().enumerate() {
        let (its_c, its_d) = density(fit.task)?;
        if its_c * d > c * its_d || at < place && its_c * d == c * its_d {
            ahead.fits.push(*fit);
        }
    }
    Some(ahead.text())
}

/// A task as one piece.
fn whole<'a>(sheet: &Sheet, task: &'a str, core: usize) -> Option<Piece<'a>> {
    let [budget, window, _, jitter, _, _] = times(sheet.part_of(task)?)?;
    Some(Piece {
        core,
        task,
        kind: Kind::Whole,
        budget,
        window,
        jitter,
        charged: 0, // no part of a record
    })
}

/// A part's times as numbers.
fn times(part: &Part) -> Option<[u32; 6]> {
    let numbers: Option<Vec<u32>> = part.times.into_iter().map(number).collect();
    numbers?.try_into().ok()
}

/// Numbers as the library is lent them: four bytes each, lowest first.
///
/// ```
/// assert_eq!(configurator::demand::lent(&[1, 258]), [1, 0, 0, 0, 2, 1, 0, 0]);
/// ```
#[must_use]
pub fn lent(numbers: &[u32]) -> Vec<u8> {
    numbers.iter().flat_map(|n| n.to_le_bytes()).collect()
}
