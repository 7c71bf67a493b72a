//! Pieces, costs and their sizes: document 01, "Sizes" and "A piece and its charge".

/// The most that a period, a deadline, a window or a jitter may be.
pub const TIME_MOST: u64 = 1_000_000;

/// The most that a cache charge, P or M, or a cost constant may be.
pub const CHARGE_MOST: u64 = 100_000;

/// The nine cost constants, in the sheet's order and under document 01's names.
#[derive(Clone, Copy, Debug, Default, PartialEq, Eq)]
pub struct Costs {
    /// `RelO`, release overhead.
    pub relo: u64,
    /// `SchedO`, scheduling overhead.
    pub schedo: u64,
    /// `TsetO`, timer setting overhead.
    pub tseto: u64,
    /// `IpB`, interrupt blocking.
    pub ipb: u64,
    /// `BetO`, budget expiry overhead.
    pub beto: u64,
    /// `MigrO`, migration overhead.
    pub migro: u64,
    /// `IpiO`, inter-processor interrupt overhead.
    pub ipio: u64,
    /// `IpiJ`, inter-processor interrupt jitter.
    pub ipij: u64,
    /// π, the clock reading precision.
    pub pi: u64,
}

impl Costs {
    /// The costs of nine numbers in the sheet's order.
    #[must_use]
    #[allow(clippy::similar_names)] // the names are document 01's
    pub fn from_numbers(numbers: [u64; 9]) -> Self {
        let [relo, schedo, tseto, ipb, beto, migro, ipio, ipij, pi] = numbers;
        Costs {
            relo,
            schedo,
            tseto,
            ipb,
            beto,
            migro,
            ipio,
            ipij,
            pi,
        }
    }

    /// The nine numbers in the sheet's order.
    #[must_use]
    pub fn numbers(&self) -> [u64; 9] {
        [
            self.relo,
            self.schedo,
            self.tseto,
            self.ipb,
            self.beto,
            self.migro,
            self.ipio,
            self.ipij,
            self.pi,
        ]
    }

    /// Whether every constant is within its size.
    #[must_use]
    pub fn sized(&self) -> bool {
        self.numbers().iter().all(|&cost| cost <= CHARGE_MOST)
    }

    /// What b(t) is below the largest window: 000, equation 6.
    #[must_use]
    pub fn blocking(&self) -> u64 {
        self.ipb.max(self.schedo + self.tseto)
    }

    /// What one release interrupt takes: 000, equation 8.
    #[must_use]
    pub fn release(&self) -> u64 {
        self.relo + self.tseto
    }
}

/// Whether a piece is a whole task, or the first or last piece of a split one.
#[derive(Clone, Copy, Debug, PartialEq, Eq)]
pub enum Kind {
    /// A task that is not split.
    Whole,
    /// The piece of a split task that runs first.
    First,
    /// The piece that runs last, on the next core.
    Last,
}

/// A piece: what one core runs of a task.
#[derive(Clone, Copy, Debug, PartialEq, Eq)]
pub struct Piece {
    /// Whole, first or last.
    pub kind: Kind,
    /// The budget x.
    pub budget: u64,
    /// The window D.
    pub window: u64,
    /// The period T.
    pub period: u64,
    /// The jitter J.
    pub jitter: u64,
    /// The cache charge P of a preemption.
    pub preemption: u64,
    /// The cache charge M of a migration.
    pub migration: u64,
}

impl Piece {
    /// Whether a record may hold this piece: every field is within its size and 1 ≤ x ≤ D ≤ T.
    #[must_use]
    pub fn sized(&self) -> bool {
        1 <= self.budget
            && self.budget <= self.window
            && self.window <= self.period
            && self.period <= TIME_MOST
            && self.jitter <= TIME_MOST
            && self.preemption <= CHARGE_MOST
            && self.migration <= CHARGE_MOST
    }

    /// The charged time C': 000, equations 7 and 9 and the unnumbered one for the last subtask.
    #[must_use]
    pub fn charge(&self, costs: &Costs) -> u64 {
        let whole = self.budget + 2 * costs.schedo + costs.tseto + self.preemption;
        match self.kind {
            Kind::Whole => whole,
            Kind::First => whole + costs.ipb + costs.beto + costs.migro,
            Kind::Last => whole + self.migration,
        }
    }

    /// What one inter-processor interrupt takes: only a last piece has them.
    #[must_use]
    pub fn ipi(&self, costs: &Costs) -> u64 {
        match self.kind {
            Kind::Whole | Kind::First => 0,
            Kind::Last => costs.ipio,
        }
    }
}
