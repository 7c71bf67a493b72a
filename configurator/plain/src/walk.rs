//! The C=D walk: document 01, "The C=D walk".

use std::cmp::Ordering;

use crate::demand::{climb, Core};
use crate::piece::{Costs, Kind, Piece};
use crate::refusal::Refusal;
use crate::sheet::Sheet;
use crate::task::{Task, Times};
use crate::verdict::{Verdict, Way};

/// A piece in a plan, with the place, from 0, of its task in the task list.
#[derive(Clone, Copy, Debug, PartialEq, Eq)]
pub struct Placed {
    /// The place of its task.
    pub task: usize,
    /// The piece.
    pub piece: Piece,
}

/// A plan: each core's row of pieces in placement order.
#[derive(Clone, Debug, PartialEq, Eq)]
pub struct Plan {
    /// The rows, core 1 first; all m are there.
    pub rows: Vec<Vec<Placed>>,
}

/// The places of the tasks in packing order: greater C/D first, ties by earlier task.
#[must_use]
pub fn packing_order(tasks: &[Task]) -> Vec<usize> {
    let mut places: Vec<usize> = (0..tasks.len()).collect();
    places.sort_by(|&a, &b| by_density(&tasks[a].times, &tasks[b].times).then(a.cmp(&b)));
    places
}

/// Greater C/D first, compared as whole products.
fn by_density(a: &Times, b: &Times) -> Ordering {
    (b.budget * a.deadline).cmp(&(a.budget * b.deadline))
}

/// The plan of the walk over all tasks. The walk never goes back to an earlier core, and may leave
/// empty cores behind it.
///
/// # Errors
///
/// 7, with the place from 1 in the task list of the task at which the walk sticks.
pub fn walk(sheet: &Sheet, way: Way) -> Result<Plan, Refusal> {
    walk_through(sheet, way).map_err(|stuck| {
        let place = u32::try_from(stuck.task + 1).unwrap_or(u32::MAX);
        Refusal::new(7, place)
    })
}

/// Where a walk sticks.
#[derive(Clone, Debug, PartialEq, Eq)]
pub struct Stuck {
    /// The place, from 0, in the task list of the task that has no room.
    pub task: usize,
    /// The row of the last core as it then stands, without that task.
    pub row: Vec<Placed>,
}

/// The plan of the walk over all tasks, as [`walk`].
///
/// # Errors
///
/// Where it sticks.
pub fn walk_through(sheet: &Sheet, way: Way) -> Result<Plan, Stuck> {
    let mut walk = Walk {
        sheet,
        way,
        rows: vec![Vec::new()],
    };
    for task in packing_order(&sheet.tasks) {
        walk.place(task)?;
    }
    let mut rows = walk.rows;
    while (rows.len() as u64) < sheet.machine.cores {
        rows.push(Vec::new());
    }
    Ok(Plan { rows })
}

/// A walk under way: the rows up to the core that it stands at.
struct Walk<'a> {
    sheet: &'a Sheet,
    way: Way,
    rows: Vec<Vec<Placed>>,
}

impl Walk<'_> {
    /// Places a task: whole at the core that the walk stands at, or split between this and the next,
    /// or by the same rules from the next core on.
    fn place(&mut self, task: usize) -> Result<(), Stuck> {
        let times = &self.sheet.tasks[task].times;
        loop {
            let core = self.core();
            let whole = times.whole_piece();
            if self.way.verdict(&core.with(whole)) == Verdict::Passes {
                self.put(task, whole);
                return Ok(());
            }
            if self.rows.len() as u64 == self.sheet.machine.cores {
                let row = self.rows.last().cloned().unwrap_or_default();
                return Err(Stuck { task, row });
            }
            match greatest_split(&core, times, self.sheet.machine.grain, self.way) {
                Some((first, last)) => {
                    self.put(task, first);
                    self.rows.push(Vec::new());
                    self.put(task, last);
                    return Ok(());
                }
                None => self.rows.push(Vec::new()),
            }
        }
    }

    /// The core that the walk stands at.
    fn core(&self) -> Core {
        let row = self.rows.last().into_iter().flatten();
        Core {
            costs: self.sheet.costs,
            pieces: row.map(|placed| placed.piece).collect(),
        }
    }

    /// Puts a piece on the core that the walk stands at.
    fn put(&mut self, task: usize, piece: Piece) {
        if let Some(row) = self.rows.last_mut() {
            row.push(Placed { task, piece });
        }
    }
}

/// The first and last piece of the greatest allowed split of a task on a core, if there is one.
///
/// Every multiple of the grain is tried from above. Bisecting would be wrong: with costs, a smaller
/// x can be refused where a larger one is allowed.
#[must_use]
pub fn greatest_split(core: &Core, times: &Times, grain: u64, way: Way) -> Option<(Piece, Piece)> {
    (1..times.budget)
        .rev()
        .filter(|x| x % grain == 0)
        .find_map(|x| split(core, times, x, way))
}

/// The first and last piece of the split at x, if x is allowed.
fn split(core: &Core, times: &Times, x: u64, way: Way) -> Option<(Piece, Piece)> {
    let mut first = Piece {
        kind: Kind::First,
        budget: x,
        ..times.whole_piece()
    };
    first.window = tight_window(core, &first, times.deadline - 1, way)?;
    let last = Piece {
        kind: Kind::Last,
        budget: times.budget - x,
        window: times.deadline - first.window,
        jitter: last_jitter(&core.costs),
        ..first
    };
    let alone = Core {
        costs: core.costs,
        pieces: vec![last],
    };
    let passes = |core: &Core| way.verdict(core) == Verdict::Passes;
    (passes(&alone) && passes(&core.with(first))).then_some((first, last))
}

/// The jitter of a last piece of a plan (document 02, E2).
fn last_jitter(costs: &Costs) -> u64 {
    costs.pi + costs.ipb + costs.relo + costs.tseto
}

/// The tight window of a first piece beside the pieces of a core, J + t, if it is at most `most`.
/// The piece's own window plays no part in it.
///
/// Document 01 states no limit for t; the walk asks up to D − 1, since the last window must be at
/// least 1.
#[must_use]
pub fn tight_window(core: &Core, first: &Piece, most: u64, way: Way) -> Option<u64> {
    let with_first = core.with(*first);
    let needed =
        |t: u64| core.costs.blocking() + first.charge(&core.costs) + with_first.interrupts(t);
    let most = most.checked_sub(first.jitter)?;
    let t = match way {
        Way::EveryLength => (1..=most).find(|&t| needed(t) <= t),
        Way::Stretches => climb(needed, most),
    };
    t.map(|t| first.jitter + t)
}
