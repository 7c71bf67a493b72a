//! The verdict on a core: document 01, "Verdict on a core".

use crate::demand::Core;

/// A verdict.
#[derive(Clone, Copy, Debug, PartialEq, Eq)]
pub enum Verdict {
    /// No overloaded length in the judged span.
    Passes,
    /// The greatest overloaded length of the judged span.
    Overloaded(u64),
    /// No busy length up to the limit.
    Undecided,
}

/// How much the oracle looks at. Both ways give the same answers; tests say so in small.
#[derive(Clone, Copy, Debug, PartialEq, Eq)]
pub enum Way {
    /// Every length, by the words of document 01.
    EveryLength,
    /// One length of each stretch of equal demand, for longer spans.
    Stretches,
}

impl Way {
    /// The verdict, this way.
    #[must_use]
    pub fn verdict(self, core: &Core) -> Verdict {
        match self {
            Way::EveryLength => by_every_length(core),
            Way::Stretches => by_stretches(core),
        }
    }
}

/// The verdict by its words: it looks at every length of the span, from the top.
///
/// ```
/// use plain::demand::Core;
/// use plain::verdict::{by_every_length, Verdict};
///
/// assert_eq!(by_every_length(&Core::default()), Verdict::Passes); // K1
/// ```
#[must_use]
pub fn by_every_length(core: &Core) -> Verdict {
    judge(core, |first, end| {
        (first..end).rfind(|&t| core.demand(t) > t)
    })
}

/// The same verdict for longer spans: it looks at one length of each stretch of equal demand.
///
/// Where a stretch's start is not overloaded no length of it is, since the lengths grow and the
/// demand stays. Where it is, the stretch is overloaded up to its end or to the demand minus one.
#[must_use]
pub fn by_stretches(core: &Core) -> Verdict {
    judge(core, |first, end| {
        let mut end = end;
        while first < end {
            let start = core.stretch_start(end - 1).max(first);
            let demand = core.demand(start);
            if demand > start {
                return Some(end.min(demand) - 1);
            }
            end = start;
        }
        None
    })
}

/// The verdict, given what finds the greatest overloaded length from t0 to the span's end, which
/// it doesn't count in.
fn judge(core: &Core, greatest_overloaded: impl Fn(u64, u64) -> Option<u64>) -> Verdict {
    if core.pieces.is_empty() {
        return Verdict::Passes;
    }
    let busy = match core.busy_length() {
        Some(length) => length,
        None => return Verdict::Undecided,
    };
    let first = core.least_live();
    match greatest_overloaded(first, first + busy) {
        Some(t) => Verdict::Overloaded(t),
        None => Verdict::Passes,
    }
}
