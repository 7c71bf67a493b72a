//! The demand of a core: document 01, "Demand at an interval length t".

use crate::piece::{Costs, Piece};

/// The most that a busy length may be.
pub const BUSY_MOST: u64 = 100_000_000;

/// The pieces of one core, in any order, with the costs that they are charged.
#[derive(Clone, Debug, Default, PartialEq, Eq)]
pub struct Core {
    /// The cost constants.
    pub costs: Costs,
    /// The pieces.
    pub pieces: Vec<Piece>,
}

impl Core {
    /// This core with one piece more.
    #[must_use]
    pub fn with(&self, piece: Piece) -> Self {
        let mut core = self.clone();
        core.pieces.push(piece);
        core
    }

    /// The largest window on the core, 0 where it is empty.
    #[must_use]
    pub fn largest_window(&self) -> u64 {
        self.pieces.iter().map(|p| p.window).max().unwrap_or(0)
    }

    /// b(t). It ends at the largest window, so the demand can fall there (K7).
    #[must_use]
    pub fn blocking(&self, t: u64) -> u64 {
        if t < self.largest_window() {
            self.costs.blocking()
        } else {
            0
        }
    }

    /// The interrupts of a piece within t: 000, equation 8, and those that wake a last piece.
    #[must_use]
    pub fn interrupts_of(&self, p: &Piece, t: u64) -> u64 {
        ceil(t + p.jitter, p.period) * self.costs.release()
            + ceil(t + self.costs.ipij, p.period) * p.ipi(&self.costs)
    }

    /// The interrupts of all pieces within t.
    #[must_use]
    pub fn interrupts(&self, t: u64) -> u64 {
        self.pieces.iter().map(|p| self.interrupts_of(p, t)).sum()
    }

    /// The demand g(t).
    #[must_use]
    pub fn demand(&self, t: u64) -> u64 {
        let due: u64 = self
            .pieces
            .iter()
            .map(|p| jobs_due(p, t) * p.charge(&self.costs))
            .sum();
        self.blocking(t) + due + self.interrupts(t)
    }

    /// Whether t is live: some piece has a job due.
    #[must_use]
    pub fn live(&self, t: u64) -> bool {
        self.pieces.iter().any(|p| jobs_due(p, t) >= 1)
    }

    /// The least live length t0, 0 where the core is empty. A piece has its first job due at the
    /// least t with t + J ≥ D.
    #[must_use]
    pub fn least_live(&self) -> u64 {
        self.pieces
            .iter()
            .map(|p| p.window.saturating_sub(p.jitter))
            .min()
            .unwrap_or(0)
    }

    /// The greatest length up to t at which some term of the demand can step, 0 if there is none.
    /// From there to t the demand is equal.
    ///
    /// Jobs due step at D − J + kT, releases at kT − J + 1, inter-processor interrupts at
    /// kT − `IpiJ` + 1, and blocking at the largest window.
    #[must_use]
    pub fn stretch_start(&self, t: u64) -> u64 {
        let since_window = t.checked_sub(self.largest_window());
        let since_step = self
            .pieces
            .iter()
            .flat_map(|p| {
                let due = (t + p.jitter).checked_sub(p.window);
                let release = (t + p.jitter).checked_sub(1);
                let ipi = (t + self.costs.ipij).checked_sub(1);
                [due, release, ipi].map(|since_first| since_first.map(|since| since % p.period))
            })
            .chain([since_window])
            .flatten()
            .min();
        t.saturating_sub(since_step.unwrap_or(t))
    }

    /// What all pieces ask for in a busy stretch of that length.
    #[must_use]
    pub fn busy_sum(&self, length: u64) -> u64 {
        self.pieces
            .iter()
            .map(|p| {
                let job = p.charge(&self.costs) + self.costs.release() + p.ipi(&self.costs);
                ceil(length, p.period) * job
            })
            .sum()
    }

    /// The busy length L, if there is one up to the limit.
    #[must_use]
    pub fn busy_length(&self) -> Option<u64> {
        climb(|length| self.busy_sum(length), BUSY_MOST)
    }
}

/// The least t from 1 up to `most` with f(t) ≤ t, where f doesn't fall as t grows: where f(t) is
/// above t, no length below f(t) will do either.
pub fn climb(f: impl Fn(u64) -> u64, most: u64) -> Option<u64> {
    let mut t = 1;
    while t <= most {
        let next = f(t);
        if next <= t {
            return Some(t);
        }
        t = next;
    }
    None
}

/// The jobs due n(t) of a piece: none while t + J is short of the window, then floor plus one.
#[must_use]
pub fn jobs_due(piece: &Piece, t: u64) -> u64 {
    if t + piece.jitter < piece.window {
        0
    } else {
        1 + (t + piece.jitter - piece.window) / piece.period
    }
}

/// a / b, rounded up.
#[must_use]
pub fn ceil(a: u64, b: u64) -> u64 {
    (a + b - 1) / b
}
