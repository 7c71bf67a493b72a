//! The papers' way, as a program without proofs would do it: 001's QPA as printed, straight down
//! past the largest window, from a busy length by its plain recurrence; 000's bisected split.
//!
//! 001's recurrence ends only where the pieces take up no more than all time, so this is asked
//! first; it can be left out, and the judged span of document 01 can be taken for 001's, to see what
//! they change. The costs, the packing order and the walk are document 01's.

use plain::piece::Costs;

use crate::sheets::{first_of, last_of, Lane, Way};
use crate::tally::{Event, Settled, Tally};

const LIMIT: u64 = 100_000_000;

/// The papers' way, counted by T.
pub struct Papers<T: Tally> {
    /// Who counts.
    pub tally: T,
    /// Whether the utilisation is looked at before the recurrence.
    pub asks_usage: bool,
    /// Whether QPA starts at t0 + L - 1, and not at L - 1 as printed.
    pub whole_span: bool,
}

impl<T: Tally> Papers<T> {
    /// As the papers have it.
    pub fn new(tally: T) -> Self {
        Papers {
            tally,
            asks_usage: true,
            whole_span: false,
        }
    }

    /// 001's LB, from the sum of the jobs on.
    fn busy_length(&mut self, core: &[Lane]) -> Option<u64> {
        let usage = |q: &Lane| q.job() as f64 / q.period as f64;
        let used: f64 = core.iter().map(usage).sum();
        if self.asks_usage && used > 1.0 + 1e-9 {
            self.tally.note(Event::Climbed);
            return None;
        }
        let mut length: u64 = core.iter().map(Lane::job).sum();
        let found = loop {
            if length > LIMIT {
                break None;
            }
            self.tally.note(Event::Climb(core.len()));
            self.tally.note(Event::Divided(core.len()));
            let asked = core
                .iter()
                .map(|q| (length + q.period - 1) / q.period * q.job())
                .sum();
            if asked == length {
                break Some(length);
            }
            length = asked;
        };
        self.tally.note(Event::Climbed);
        found
    }

    /// The demand at t.
    fn demand(&mut self, core: &[Lane], stall: u64, widest: u64, t: u64) -> u64 {
        self.tally.note(Event::Demand(core.len()));
        let (mut sum, mut divided) = (if t < widest { stall } else { 0 }, 0);
        for q in core {
            if t + q.jitter >= q.window {
                sum += (1 + (t + q.jitter - q.window) / q.period) * q.charge;
                divided += 1;
            }
            if q.release > 0 {
                sum += (t + q.jitter + q.period - 1) / q.period * q.release;
                divided += 1;
            }
            if q.ipi > 0 {
                sum += (t + q.ipij + q.period - 1) / q.period * q.ipi;
                divided += 1;
            }
        }
        self.tally.note(Event::Divided(divided));
        sum
    }

    /// Whether the core is schedulable: QPA as 001 prints it, with a gap of 1.
    pub fn schedulable(&mut self, core: &[Lane], stall: u64) -> bool {
        self.decide(core, stall).unwrap_or(false)
    }

    fn decide(&mut self, core: &[Lane], stall: u64) -> Option<bool> {
        let length = self.busy_length(core)?;
        let widest = core.iter().map(|q| q.window).max()?;
        let due = |q: &Lane| q.window.saturating_sub(q.jitter);
        let least = core.iter().map(due).min()?;
        let mut end = if self.whole_span {
            least + length
        } else {
            length
        }; // t + 1
        while end > least {
            let demand = self.demand(core, stall, widest, end - 1);
            if demand >= end {
                return Some(false);
            }
            end = demand;
        }
        Some(true)
    }

    /// The interrupts of all pieces by t.
    fn interrupts(&mut self, core: &[Lane], t: u64) -> u64 {
        self.tally.note(Event::Tight(core.len()));
        self.tally.note(Event::Divided(2 * core.len()));
        let of = |q: &Lane| {
            (t + q.jitter + q.period - 1) / q.period * q.release
                + (t + q.ipij + q.period - 1) / q.period * q.ipi
        };
        core.iter().map(of).sum()
    }
}

impl<T: Tally> Way for Papers<T> {
    fn passes(&mut self, core: &[Lane], stall: u64) -> bool {
        let answer = self.decide(core, stall);
        self.tally.note(Event::Judged(answer.is_some()));
        answer.unwrap_or(false)
    }

    /// 000, section IV: the first window is bisected, and the budget follows from equation 16.
    fn split(
        &mut self,
        core: &mut Vec<Lane>,
        costs: &Costs,
        times: &[u64; 6],
        grain: u64,
    ) -> Option<(u64, u64)> {
        let stall = costs.blocking();
        let jitter = times[3];
        let n = core.len();
        let none = Lane::of(costs, 1, &first_of(times, 0, 0));
        core.push(none);
        let (mut low, mut high, mut budget) = (0, times[1], 0);
        while high - low > 1 {
            let middle = (low + high) / 2;
            let t = middle.saturating_sub(jitter);
            let held = stall + none.charge + self.interrupts(core, t);
            let x = t.saturating_sub(held);
            let fits = if x == 0 {
                true
            } else if x >= times[0] {
                false
            } else {
                core[n].window = middle;
                core[n].charge = none.charge + x;
                self.schedulable(core, stall)
            };
            let settled = if fits {
                Settled::Allowed
            } else {
                Settled::WholeCap
            };
            self.tally.note(Event::Candidate(settled));
            if fits {
                low = middle;
                budget = x;
            } else {
                high = middle;
            }
        }
        core.truncate(n);
        budget = budget / grain * grain;
        let found = if budget == 0 {
            None
        } else {
            let last = Lane::of(costs, 2, &last_of(costs, times, budget, low));
            self.schedulable(&[last], stall).then_some((budget, low))
        };
        self.tally.note(Event::Searched);
        found
    }
}
