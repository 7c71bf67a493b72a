//! The library's own algorithms once more, in plain Rust: the busy length by leaps, the walk down
//! with care at the largest window, the search for what is shown, and the lean search for a split. They are
//! written from the Rattle source to be counted, and to be timed by another compiler; the listings
//! and the lengths that are shown are compared.

#![allow(clippy::many_single_char_names)] // the letters are those of document 01 and of the source

use plain::piece::Costs;

use crate::sheets::{first_of, last_of, Lane, Way};
use crate::tally::{Event, Settled, Tally};

const LIMIT: u64 = 100_000_000;
const ALL_TIME: u64 = 1 << 32;

/// The library's way, counted by T.
pub struct Lean<T: Tally> {
    /// Who counts.
    pub tally: T,
    /// Whether the next ideas are tried, which the library does not have: nothing is divided for
    /// what comes within one period, and shares are divided once a climb.
    next: bool,
}

impl<T: Tally> Lean<T> {
    /// The library's way.
    pub fn new(tally: T) -> Self {
        Lean { tally, next: false }
    }

    /// The same with the next ideas.
    pub fn next(tally: T) -> Self {
        Lean { tally, next: true }
    }
}

/// What a core says.
#[derive(Clone, Copy, Debug, PartialEq, Eq)]
pub enum Verdict {
    /// Passes.
    Passes,
    /// Overloaded, at the greatest such length of the judged span.
    Overloaded(u64),
    /// No busy length up to the limit.
    Undecided,
}

/// The length that is shown of a core with a busy length, and the demand there.
#[derive(Clone, Copy, Debug, PartialEq, Eq)]
pub enum Sought {
    /// The greatest overloaded length of the judged span.
    Over(u64, u64),
    /// The shortest length with the least slack, where none is overloaded.
    Least(u64, u64),
}

/// What a core with a piece behind tells: it passes, its own blocking overloads that length, or no
/// more than that may be charged for the piece.
enum Bound {
    Stands,
    Falls(u64),
    AtMost(u64),
}

fn ceil(a: u64, b: u64) -> u64 {
    (a + (b - 1)) / b
}

fn jobs_due(q: &Lane, t: u64) -> u64 {
    if t + q.jitter < q.window {
        0
    } else {
        1 + (t + q.jitter - q.window) / q.period
    }
}

/// The same, without a division where at most one period has passed.
fn jobs_due_soon(q: &Lane, t: u64) -> u64 {
    if t + q.jitter < q.window + q.period {
        u64::from(t + q.jitter >= q.window)
    } else {
        jobs_due(q, t)
    }
}

/// What interrupts ask for by t: nothing is divided where they cost nothing.
fn interrupts(q: &Lane, t: u64) -> u64 {
    let calls = |cost: u64, jitter: u64| {
        if cost == 0 {
            0
        } else {
            ceil(t + jitter, q.period) * cost
        }
    };
    calls(q.release, q.jitter) + calls(q.ipi, q.ipij)
}

/// The same, without a division within one period.
fn interrupts_soon(q: &Lane, t: u64) -> u64 {
    let calls = |cost: u64, jitter: u64| {
        if cost == 0 || t + jitter == 0 {
            0
        } else if t + jitter <= q.period {
            cost
        } else {
            ceil(t + jitter, q.period) * cost
        }
    };
    calls(q.release, q.jitter) + calls(q.ipi, q.ipij)
}

/// How many of the pieces have a job due.
fn due(core: &[Lane], t: u64) -> usize {
    core.iter().filter(|q| t + q.jitter >= q.window).count()
}

/// How many of them one that is due more than a period ago.
fn due_long(core: &[Lane], t: u64) -> usize {
    let long = |q: &&Lane| t + q.jitter >= q.window + q.period;
    core.iter().filter(long).count()
}

/// How many costs of interrupts are not 0.
fn calls(core: &[Lane]) -> usize {
    let of = |q: &Lane| usize::from(q.release > 0) + usize::from(q.ipi > 0);
    core.iter().map(of).sum()
}

/// How many of them have come for more than a period.
fn calls_long(core: &[Lane], t: u64) -> usize {
    let long = |q: &Lane, cost: u64, jitter: u64| usize::from(cost > 0 && t + jitter > q.period);
    let of = |q: &Lane| long(q, q.release, q.jitter) + long(q, q.ipi, q.ipij);
    core.iter().map(of).sum()
}

fn largest_window(core: &[Lane]) -> u64 {
    core.iter().map(|q| q.window).max().unwrap_or(0)
}

fn least_live(core: &[Lane]) -> u64 {
    let due = |q: &Lane| q.window.saturating_sub(q.jitter);
    core.iter().map(due).min().unwrap_or(0)
}

/// The end below which a walk down goes on: it never steps past the largest window.
fn next_end(g: u64, w: u64, t: u64) -> u64 {
    if w <= t {
        g.max(w)
    } else {
        g
    }
}

/// From where on the demand of a piece is as at t.
fn lane_start(q: &Lane, t: u64) -> u64 {
    let due = if t + q.jitter < q.window {
        0
    } else {
        (q.window + (t + q.jitter - q.window) / q.period * q.period).saturating_sub(q.jitter)
    };
    let calls = |cost: u64, jitter: u64| {
        if cost == 0 {
            return 0;
        }
        let before = (t + jitter).saturating_sub(1);
        (before / q.period * q.period + 1).saturating_sub(jitter)
    };
    due.max(calls(q.release, q.jitter))
        .max(calls(q.ipi, q.ipij))
}

/// The first length past l, where the busy sum is asked, that holds it, or l + 1024. From one length
/// to the next the sum grows by the jobs released at the first.
#[allow(clippy::cast_possible_truncation)] // a place is below a period, which is at most 1,000,000
fn held_from(core: &[Lane], l: u64, asked: u64) -> u64 {
    let mut marks = [0; 1024];
    for q in core {
        let first = (ceil(l, q.period) * q.period - l) as usize;
        for mark in marks.iter_mut().skip(first).step_by(q.period as usize) {
            *mark += q.job();
        }
    }
    let (mut sum, mut m) = (asked, l + 1);
    for mark in &marks[..1023] {
        sum += mark;
        if sum <= m {
            return m;
        }
        m += 1;
    }
    m
}

impl<T: Tally> Lean<T> {
    /// The interrupts of all pieces by t.
    fn calls(&mut self, core: &[Lane], t: u64) -> u64 {
        if self.next {
            self.tally.note(Event::Divided(calls_long(core, t)));
            core.iter().map(|q| interrupts_soon(q, t)).sum()
        } else {
            self.tally.note(Event::Divided(calls(core)));
            core.iter().map(|q| interrupts(q, t)).sum()
        }
    }

    fn demand(&mut self, core: &[Lane], b: u64, w: u64, t: u64) -> u64 {
        self.tally.note(Event::Demand(core.len()));
        let loads: u64 = if self.next {
            self.tally
                .note(Event::Divided(due_long(core, t) + calls_long(core, t)));
            let load = |q| jobs_due_soon(q, t) * q.charge + interrupts_soon(q, t);
            core.iter().map(load).sum()
        } else {
            self.tally.note(Event::Divided(due(core, t) + calls(core)));
            let load = |q| jobs_due(q, t) * q.charge + interrupts(q, t);
            core.iter().map(load).sum()
        };
        if t < w {
            b + loads
        } else {
            loads
        }
    }

    /// The busy length: each step goes to the busy sum, or as far as the shares of the pieces
    /// reach; where a long climb would gain little by that, it walks over 1,024 lengths.
    pub fn busy_length(&mut self, core: &[Lane]) -> Option<u64> {
        let found = if self.next {
            self.tally.note(Event::Divided(core.len()));
            let mut shares = [0; 80];
            for (share, q) in shares.iter_mut().zip(core) {
                *share = q.job() * ALL_TIME / q.period;
            }
            self.climb(core, |place, _| shares[place])
        } else {
            self.climb(core, |_, q| q.job() * ALL_TIME / q.period)
        };
        self.tally.note(Event::Climbed);
        found
    }

    fn climb(&mut self, core: &[Lane], share_of: impl Fn(usize, &Lane) -> u64) -> Option<u64> {
        let (mut l, mut ahead, mut plain) = (1, 200_000_000, 256_u64);
        while l <= LIMIT {
            self.tally.note(Event::Climb(core.len()));
            let edge = l + ahead;
            let (mut asked, mut share, mut work, mut flowing) = (0, 0, 0, 0);
            for (place, q) in core.iter().enumerate() {
                let jobs = ceil(l, q.period);
                let mine = jobs * q.job();
                asked += mine;
                if jobs * q.period < edge {
                    flowing += 1;
                    share += share_of(place, q);
                } else {
                    work += mine;
                }
            }
            let shares = if self.next { 0 } else { flowing };
            self.tally.note(Event::Divided(core.len() + shares));
            if asked <= l {
                return Some(l);
            }
            let reach = if work > LIMIT || share > ALL_TIME || (share == ALL_TIME && work > 0) {
                LIMIT + 1
            } else if share < ALL_TIME {
                work * ALL_TIME / (ALL_TIME - share)
            } else {
                0
            };
            let next = asked.max(reach);
            let short = plain == 0 && next < l + 256;
            ahead = if plain > 0 { 0 } else { (ahead + next - l) / 2 };
            plain = plain.saturating_sub(1);
            if short {
                self.tally.note(Event::Walk(core.len()));
                let m = held_from(core, l, asked);
                if m < l + 256 {
                    return Some(m).filter(|&m| m <= LIMIT);
                }
                l = m;
            } else {
                if reach > asked {
                    self.tally.note(Event::Leap);
                }
                l = next;
            }
        }
        None
    }

    /// The greatest of the l lengths from a at which the demand, with the bar added, is above the
    /// length; and the demand there.
    fn hunt(
        &mut self,
        core: &[Lane],
        b: u64,
        w: u64,
        bar: u64,
        [a, l]: [u64; 2],
    ) -> Option<[u64; 2]> {
        let mut end = a + l;
        while a < end {
            let t = end - 1;
            let g = self.demand(core, b, w, t);
            if t < g + bar {
                return Some([t, g]);
            }
            end = next_end(g + bar, w, t);
        }
        None
    }

    fn descend(&mut self, core: &[Lane], b: u64, a: u64, l: u64) -> Verdict {
        let w = largest_window(core);
        match self.hunt(core, b, w, 0, [a, l]) {
            Some([t, _]) => Verdict::Overloaded(t),
            None => Verdict::Passes,
        }
    }

    /// The verdict on a core.
    pub fn judge(&mut self, core: &[Lane], b: u64) -> Verdict {
        if core.is_empty() {
            return Verdict::Passes;
        }
        match self.busy_length(core) {
            None => Verdict::Undecided,
            Some(l) => self.descend(core, b, least_live(core), l),
        }
    }

    /// From where on the demand of the pieces and of q is as at t.
    fn stretch_start(&mut self, core: &[Lane], q: &Lane, t: u64) -> u64 {
        self.tally.note(Event::Stretch(core.len() + 1));
        self.tally
            .note(Event::Divided(due(core, t) + calls(core) + 1));
        let starts = core.iter().map(|q| lane_start(q, t)).max().unwrap_or(0);
        starts.max(lane_start(q, t))
    }

    /// The start of t's stretch, not below a and not past the largest window w; or t, where the
    /// demand there is not x, which it is at t.
    fn level(&mut self, core: &[Lane], b: u64, w: u64, a: u64, [t, x]: [u64; 2]) -> u64 {
        let start = a.max(self.stretch_start(core, &core[0], t));
        let v = next_end(t.min(start), w, t);
        if v == t || self.demand(core, b, w, v) == x {
            v
        } else {
            t
        }
    }

    /// The greatest overloaded one of the l lengths from a or, where there is none, the shortest
    /// with the least slack.
    fn seek(&mut self, core: &[Lane], b: u64, w: u64, a: u64, l: u64) -> Sought {
        let (mut best, mut asked) = (a, self.demand(core, b, w, a));
        let mut end = a + l;
        while a < end {
            let bar = best.saturating_sub(asked) + 1;
            let [t, x] = match self.hunt(core, b, w, bar, [a, end - a]) {
                None => return Sought::Least(best, asked),
                Some(hit) => hit,
            };
            if t < x {
                return Sought::Over(t, x);
            }
            let v = self.level(core, b, w, a, [t, x]);
            if v < x {
                return Sought::Over(x - 1, x);
            }
            (best, asked, end) = (v, x, v);
        }
        Sought::Least(best, asked)
    }

    /// What is shown of a core with pieces; nothing where it has no busy length.
    pub fn show(&mut self, core: &[Lane], b: u64) -> Option<Sought> {
        let l = self.busy_length(core)?;
        let w = largest_window(core);
        Some(self.seek(core, b, w, least_live(core), l))
    }

    /// The greatest charge of q up to f that fits at t, what is asked for there beside it, and the
    /// jobs that are charged.
    fn level_at(&mut self, core: &[Lane], b: u64, w: u64, q: &Lane, f: u64, t: u64) -> [u64; 3] {
        let g = self.demand(core, b, w, t);
        let calls = self.calls(std::slice::from_ref(q), t);
        self.tally.note(Event::Divided(1));
        if t < g + calls {
            return [0, 0, 0];
        }
        let jobs = jobs_due(q, t);
        let room = t - g - calls;
        let y = if jobs * f <= room { f } else { room / jobs };
        [y, g + calls, jobs]
    }

    /// The greatest charge of q up to f that fits at each of the l lengths from a, or 0: down from
    /// the last of them, with f lowered wherever it does not fit.
    fn squeeze(&mut self, core: &[Lane], b: u64, q: &Lane, f: u64, a: u64, l: u64) -> u64 {
        let w = largest_window(core);
        let (mut charge, mut end) = (f, a + l);
        while a < end {
            let t = end - 1;
            let [most, rest, jobs] = self.level_at(core, b, w, q, charge, t);
            if most == 0 {
                return 0;
            }
            if most < charge {
                let start = self.stretch_start(core, q, t);
                charge = self.level_at(core, b, w, q, most, a.max(start).min(t))[0];
            }
            end = next_end(rest + jobs * charge, w, t);
        }
        charge
    }

    fn cap(&mut self, core: &[Lane], b: u64, q: &Lane, a: u64) -> u64 {
        let far = self.squeeze(core, b, q, q.charge, LIMIT, 1);
        self.squeeze(core, b, q, far, a, 4 * q.period)
    }

    /// The high end that the probes lower, where a number that is refused tells so of each greater one:
    /// the low end goes up by one, and by twice as much each time.
    fn lowered(
        &mut self,
        from: u64,
        top: u64,
        mut refused: impl FnMut(&mut Self, u64) -> bool,
    ) -> u64 {
        let (mut low, mut high) = (from, top);
        while low + 1 < high {
            let m = low + (low - from + 1).min((high - low) / 2);
            if refused(self, m) {
                high = m;
            } else {
                low = m;
            }
        }
        high
    }

    /// A charge of the last of the pieces, q, below its own, that may leave a busy length: at the last
    /// multiples of the periods the busy sum is least above the length.
    fn guess(&mut self, all: &[Lane], q: &Lane) -> u64 {
        let mut best = 0;
        for p in all {
            let l = LIMIT / p.period * p.period;
            self.tally.note(Event::Climb(all.len()));
            self.tally.note(Event::Divided(all.len() + 3));
            let asked: u64 = all.iter().map(|q| ceil(l, q.period) * q.job()).sum();
            let over = asked.saturating_sub(l) / ceil(l, q.period).max(1);
            best = best.max(q.charge.saturating_sub(1 + over));
        }
        best
    }

    /// What may be charged for the last of the pieces, q, where they have no busy length: the busy sum
    /// falls with the charge at every length, so a charge without one tells so of each greater one.
    /// The last few are left to the search.
    fn busy_cap(&mut self, all: &[Lane], q: &Lane) -> u64 {
        let mut core = all.to_vec();
        let last = core.len() - 1;
        let (mut low, mut high) = (self.guess(all, q), q.charge);
        while low + 4 < high {
            let charge = (low + high) / 2;
            core[last].charge = charge;
            match self.busy_length(&core) {
                None => high = charge,
                Some(_) => low = charge,
            }
        }
        high - 1
    }

    /// The greatest charge of q, below its own, that fits at t beside the core where the stall counts.
    fn fit_stalled(&mut self, core: &[Lane], q: &Lane, b: u64, t: u64) -> u64 {
        let asked = self.demand(core, b, t + 1, t) + self.calls(std::slice::from_ref(q), t);
        self.tally.note(Event::Divided(1));
        if t < asked {
            return 0;
        }
        let (jobs, room) = (jobs_due(q, t), t - asked);
        let most = if jobs * q.charge <= room {
            q.charge
        } else {
            room / jobs
        };
        most.min(q.charge - 1)
    }

    /// What the core tells of the last of its pieces.
    fn bound(&mut self, all: &[Lane], b: u64) -> (Bound, Settled) {
        let (q, core) = match all.split_last() {
            Some(parted) => parted,
            None => return (Bound::Stands, Settled::Allowed),
        };
        let a = least_live(all);
        let cap = self.cap(core, b, q, a);
        if cap < q.charge {
            return (Bound::AtMost(cap), Settled::ShortCap);
        }
        let l = match self.busy_length(all) {
            None => return (Bound::AtMost(self.busy_cap(all, q)), Settled::NoBusyLength),
            Some(l) => l,
        };
        let near = self.squeeze(core, b, q, q.charge, a, l);
        if near < q.charge {
            return (Bound::AtMost(near), Settled::WholeCap);
        }
        let own = a.max(largest_window(core));
        match self.descend(all, b, own, q.window.saturating_sub(own)) {
            Verdict::Passes => (Bound::Stands, Settled::Allowed),
            Verdict::Overloaded(t) => (Bound::Falls(t), Settled::OwnBlocking),
            Verdict::Undecided => (Bound::Falls(own), Settled::OwnBlocking),
        }
    }

    /// The least t from 1 to top that holds the base and the interrupts by t.
    fn tight(&mut self, core: &[Lane], base: u64, top: u64) -> Option<u64> {
        let mut t = 1;
        while t <= top {
            self.tally.note(Event::Tight(core.len()));
            let asked = base + self.calls(core, t);
            if asked <= t {
                return Some(t);
            }
            t = asked;
        }
        None
    }

    /// What the t of each allowed split's tight window is below: it leaves the last piece a window, and
    /// the jobs of the core that are due by then are charged no more than the stall where the task
    /// has no jitter, and none is due where it has. What is due never falls.
    fn tight_end(&mut self, core: &[Lane], ask: &Ask<'_>) -> u64 {
        let end = ask.times[1].saturating_sub(ask.times[3]);
        if core.is_empty() {
            return end;
        }
        let most = if ask.times[3] == 0 { ask.stall } else { 0 };
        let from = least_live(core).saturating_sub(1);
        self.lowered(from, end, |way, t| {
            let calls = way.calls(core, t);
            most + calls < way.demand(core, 0, 0, t)
        })
    }

    /// Where the search starts: no allowed split is above.
    fn start(&mut self, core: &mut Vec<Lane>, ask: &Ask<'_>) -> u64 {
        let end = self.tight_end(core, ask);
        let x = (ask.times[0] - 1).min(end.saturating_sub(ask.least + 1));
        if x == 0 {
            return 0;
        }
        let q = ask.first(x, ask.times[3] + (end - 1));
        core.push(q);
        let a = least_live(core);
        core.pop();
        let cap = self.cap(core, ask.stall, &q, a);
        cap.saturating_sub(q.charge - x)
    }

    /// Down from x to where a tight window ends by `top`: no budget between has one. The first piece, of
    /// whatever budget, lies behind.
    fn window_below(&mut self, all: &[Lane], base: u64, x: u64, top: u64) -> u64 {
        self.lowered(0, x, |way, budget| {
            way.tight(all, base + budget, top).is_none()
        }) - 1
    }

    /// Down from x, with the tight t, whose last piece is overloaded by more than s: a smaller budget's
    /// is too, unless its tight window has more than s interrupts less.
    fn last_below(&mut self, all: &[Lane], base: u64, x: u64, t: u64, s: u64) -> u64 {
        let calls = |way: &mut Self, t| {
            way.tally.note(Event::Tight(all.len()));
            way.calls(all, t)
        };
        let most = calls(self, t).saturating_sub(s);
        let end = self.lowered(0, t, |way, m| most <= calls(way, m));
        self.window_below(all, base, x, end - 1)
    }

    /// One candidate: its window where it is allowed, or how far down the next may stand; and what
    /// settled it.
    fn try_split(
        &mut self,
        core: &mut Vec<Lane>,
        ask: &Ask<'_>,
        x: u64,
    ) -> (Result<u64, u64>, Settled) {
        let n = core.len();
        core.push(ask.first(x, ask.times[1] - 1));
        let tried = self.try_laid(core, ask, x);
        core.truncate(n);
        tried
    }

    /// The same, with the first piece behind.
    fn try_laid(&mut self, all: &mut [Lane], ask: &Ask<'_>, x: u64) -> (Result<u64, u64>, Settled) {
        let (deadline, jitter) = (ask.times[1], ask.times[3]);
        let last = all.len() - 1;
        let extra = all[last].charge - x;
        let base = ask.stall + extra;
        let top = (deadline - 1).saturating_sub(jitter);
        let t = match self.tight(all, base + x, top) {
            None => return (Err(self.window_below(all, base, x, top)), Settled::NoWindow),
            Some(t) => t,
        };
        let w = jitter + t;
        let rest = [Lane::of(ask.costs, 2, &last_of(ask.costs, ask.times, x, w))];
        match self.judge(&rest, ask.stall) {
            Verdict::Passes => {}
            Verdict::Undecided => return (Err(0), Settled::LastEnds),
            Verdict::Overloaded(u) => {
                let mut excess = |t| {
                    let g = self.demand(&rest, ask.stall, deadline - w, t);
                    g.saturating_sub(t + 1)
                };
                let s = excess(u).max(excess(least_live(&rest)));
                let below = self.last_below(all, base, x, t, s);
                return (Err(below), Settled::LastFalls);
            }
        }
        let core = &all[..last];
        if last > 0 && least_live(core) <= t && t < largest_window(core).max(w) {
            let top = least_live(core).saturating_sub(1);
            return (Err(self.window_below(all, base, x, top)), Settled::JobDue);
        }
        all[last].window = w;
        let (bound, settled) = self.bound(all, ask.stall);
        let told = match bound {
            Bound::Stands => Ok(w),
            Bound::AtMost(f) => Err(f.saturating_sub(extra)),
            Bound::Falls(u) => {
                let most = self.fit_stalled(&all[..last], &all[last], ask.stall, u);
                let tight = self.window_below(all, base, x, u.saturating_sub(jitter));
                Err(most.saturating_sub(extra).max(tight))
            }
        };
        (told, settled)
    }
}

/// What a search for a split is about. `least` is what no tight window is shorter than, beside
/// the budget.
struct Ask<'a> {
    costs: &'a Costs,
    times: &'a [u64; 6],
    stall: u64,
    least: u64,
}

impl Ask<'_> {
    fn first(&self, x: u64, w: u64) -> Lane {
        Lane::of(self.costs, 1, &first_of(self.times, x, w))
    }
}

impl<T: Tally> Way for Lean<T> {
    fn passes(&mut self, core: &[Lane], stall: u64) -> bool {
        let verdict = self.judge(core, stall);
        self.tally
            .note(Event::Judged(verdict != Verdict::Undecided));
        verdict == Verdict::Passes
    }

    fn split(
        &mut self,
        core: &mut Vec<Lane>,
        costs: &Costs,
        times: &[u64; 6],
        grain: u64,
    ) -> Option<(u64, u64)> {
        let stall = costs.blocking();
        let mut ask = Ask {
            costs,
            times,
            stall,
            least: 0,
        };
        let none = ask.first(0, 0);
        self.tally.note(Event::Tight(core.len() + 1));
        ask.least = stall + none.charge + self.calls(core, 1) + self.calls(&[none], 1);
        let mut k = self.start(core, &ask) / grain;
        let mut found = None;
        while k >= 1 {
            let (tried, settled) = self.try_split(core, &ask, k * grain);
            self.tally.note(Event::Candidate(settled));
            match tried {
                Ok(w) => {
                    found = Some((k * grain, w));
                    break;
                }
                Err(below) => k = below / grain,
            }
        }
        self.tally.note(Event::Searched);
        found
    }
}
