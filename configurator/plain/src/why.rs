//! Why a verdict is what it is: document 02, E1.
//!
//! The text has tabs between fields and a newline behind each line: `why` with the verdict, the length
//! that it is shown at and the blocking there; for each piece `piece` with its name, its kind, its jobs,
//! their demand and its interrupts; `total` with the sum; `slack` with the length minus the sum. Of a
//! core without pieces it is the first line alone, and where the walk sticks a line `noroom` comes
//! before all others.

use crate::demand::{ceil, jobs_due, Core, BUSY_MOST};
use crate::listing::{kind_word, put};
use crate::piece::Piece;
use crate::records;
use crate::refusal::Refusal;
use crate::sheet::{self, Sheet};
use crate::task::Name;
use crate::verdict::{Verdict, Way};
use crate::walk::{walk_through, Placed};

/// The longest length that [`demand_at`] is asked for: the busy length limit and the largest window.
pub const LENGTH_MOST: u64 = 101_000_000;

/// What one piece asks for at a length.
#[derive(Clone, Copy, Debug, PartialEq, Eq)]
pub struct Terms {
    /// Its jobs.
    pub jobs: u64,
    /// The charged time of these.
    pub demand: u64,
    /// Its interrupts, those that wake a last piece too.
    pub interrupts: u64,
}

/// The figures of a core with pieces, at the length that they are shown at.
#[derive(Clone, Debug, PartialEq, Eq)]
pub struct Figures {
    /// The verdict.
    pub verdict: Verdict,
    /// The length.
    pub length: u64,
    /// What the core is held up for.
    pub blocking: u64,
    /// What each piece asks for, in their order.
    pub terms: Vec<Terms>,
}

impl Figures {
    /// The figures of a core, if it has pieces.
    #[must_use]
    pub fn of(core: &Core, way: Way) -> Option<Self> {
        if core.pieces.is_empty() {
            return None;
        }
        let verdict = way.verdict(core);
        Some(match verdict {
            Verdict::Overloaded(length) => Figures::due(verdict, core, length),
            Verdict::Passes => Figures::due(verdict, core, way.least_slack(core)),
            Verdict::Undecided => Figures::busy(core),
        })
    }

    /// The terms of the demand at a length.
    fn due(verdict: Verdict, core: &Core, length: u64) -> Self {
        let terms = |piece: &Piece| {
            let jobs = jobs_due(piece, length);
            Terms {
                jobs,
                demand: jobs * piece.charge(&core.costs),
                interrupts: core.interrupts_of(piece, length),
            }
        };
        Figures {
            verdict,
            length,
            blocking: core.blocking(length),
            terms: core.pieces.iter().map(terms).collect(),
        }
    }

    /// The terms of the busy sum at the limit, which has no blocking.
    fn busy(core: &Core) -> Self {
        let terms = |piece: &Piece| {
            let jobs = ceil(BUSY_MOST, piece.period);
            Terms {
                jobs,
                demand: jobs * piece.charge(&core.costs),
                interrupts: jobs * (core.costs.release() + piece.ipi(&core.costs)),
            }
        };
        Figures {
            verdict: Verdict::Undecided,
            length: BUSY_MOST,
            blocking: 0,
            terms: core.pieces.iter().map(terms).collect(),
        }
    }

    /// The sum of all that is shown.
    #[must_use]
    pub fn total(&self) -> u64 {
        let terms = self
            .terms
            .iter()
            .map(|terms| terms.demand + terms.interrupts);
        self.blocking + terms.sum::<u64>()
    }
}

impl Way {
    /// Of a core that passes and has pieces, the live length of the judged span with the least slack,
    /// the shortest if several.
    #[must_use]
    pub fn least_slack(self, core: &Core) -> u64 {
        let first = core.least_live();
        let end = first + core.busy_length().unwrap_or(1);
        match self {
            Way::EveryLength => least_by_every_length(core, first, end),
            Way::Stretches => least_by_stretches(core, first, end),
        }
    }
}

/// The length minus the demand.
fn slack(length: u64, demand: u64) -> i128 {
    i128::from(length) - i128::from(demand)
}

/// It looks at every length from the first to the end, which it doesn't count in. Of several with the
/// least slack it keeps the one that came first.
fn least_by_every_length(core: &Core, first: u64, end: u64) -> u64 {
    let (mut least, mut least_slack) = (first, slack(first, core.demand(first)));
    for t in first..end {
        let slack = slack(t, core.demand(t));
        if slack < least_slack {
            (least, least_slack) = (t, slack);
        }
    }
    least
}

/// The same for longer spans, from the top: it looks at the start of each stretch of equal demand. In a
/// stretch the slack grows with the length, so no other length of it has the least. At the largest window,
/// where the demand can fall, a stretch starts too.
fn least_by_stretches(core: &Core, first: u64, end: u64) -> u64 {
    let (mut least, mut least_slack) = (first, slack(first, core.demand(first)));
    let mut above = end;
    while first < above {
        let start = core.stretch_start(above - 1).max(first);
        let slack = slack(start, core.demand(start));
        if slack < least_slack || (slack == least_slack && start < least) {
            (least, least_slack) = (start, slack);
        }
        above = start;
    }
    least
}

/// The text for a core whose pieces have these names.
#[must_use]
pub fn of_core(core: &Core, names: &[Name], way: Way) -> Vec<u8> {
    let figures = match Figures::of(core, way) {
        Some(figures) => figures,
        None => return b"why\tpasses\t0\t0\n".to_vec(),
    };
    let verdict = match figures.verdict {
        Verdict::Passes => "passes",
        Verdict::Overloaded(_) => "overloaded",
        Verdict::Undecided => "undecided",
    };
    let (length, blocking) = (figures.length, figures.blocking);
    let mut text = format!("why\t{verdict}\t{length}\t{blocking}\n").into_bytes();
    for ((piece, name), terms) in core.pieces.iter().zip(names).zip(&figures.terms) {
        let kind = kind_word(piece.kind);
        text.extend(b"piece\t");
        text.extend(name);
        let (jobs, demand, interrupts) = (terms.jobs, terms.demand, terms.interrupts);
        text.extend(format!("\t{kind}\t{jobs}\t{demand}\t{interrupts}\n").bytes());
    }
    let total = figures.total();
    let slack = slack(length, total);
    text.extend(format!("total\t{total}\nslack\t{slack}\n").bytes());
    text
}

/// The text for a lent run of records. A piece is called by its place, from 1.
///
/// # Errors
///
/// As [`records::read`].
///
/// ```
/// use plain::verdict::Way;
/// use plain::why;
///
/// let record = [0u32, 1, 1, 1, 0, 0, 0]; // K2
/// let record: Vec<u8> = record.iter().flat_map(|n| n.to_le_bytes()).collect();
/// let text = b"why\tpasses\t1\t0\npiece\t1\twhole\t1\t1\t0\ntotal\t1\nslack\t0\n";
/// assert_eq!(why::of_records(&record, &[0; 36], Way::EveryLength), Ok(text.to_vec()));
/// ```
pub fn of_records(records: &[u8], costs: &[u8], way: Way) -> Result<Vec<u8>, Refusal> {
    let core = records::read(records, costs)?;
    let places = 1..=core.pieces.len();
    let names: Vec<Name> = places.map(|place| place.to_string().into_bytes()).collect();
    Ok(of_core(&core, &names, way))
}

/// The text for a core, from 1, of a sheet's plan. Where the walk sticks, it is that of the last core
/// with the whole stuck task added, whichever core is asked for.
///
/// # Errors
///
/// The sheet's refusal, then 1, carrying nothing, for a core that the machine doesn't have.
pub fn of_sheet(bytes: &[u8], core: u64, way: Way) -> Result<Vec<u8>, Refusal> {
    let sheet = sheet::read(bytes)?;
    if core < 1 || core > sheet.machine.cores {
        return Err(Refusal::new(1, 0));
    }
    match walk_through(&sheet, way) {
        Ok(plan) => {
            let rows = (1..).zip(&plan.rows);
            let row = rows.filter(|(number, _)| *number == core);
            let row: Vec<Placed> = row.flat_map(|(_, row)| row).copied().collect();
            Ok(of_row(&sheet, &row, way))
        }
        Err(stuck) => {
            let task = &sheet.tasks[stuck.task];
            let mut text = format!("noroom\t{}\t", stuck.task + 1).into_bytes();
            text.extend(&task.name);
            text.extend(format!("\t{}\n", sheet.machine.cores).bytes());
            let mut row = stuck.row;
            row.push(Placed {
                task: stuck.task,
                piece: task.times.whole_piece(),
            });
            text.extend(of_row(&sheet, &row, way));
            Ok(text)
        }
    }
}

/// The text for a row of pieces of a sheet's tasks.
fn of_row(sheet: &Sheet, row: &[Placed], way: Way) -> Vec<u8> {
    let core = Core {
        costs: sheet.costs,
        pieces: row.iter().map(|placed| placed.piece).collect(),
    };
    let name = |placed: &Placed| sheet.tasks[placed.task].name.clone();
    let names: Vec<Name> = row.iter().map(name).collect();
    of_core(&core, &names, way)
}

/// What a lent buffer holds after the text for records was asked for, and the text's length.
///
/// # Errors
///
/// As [`of_records`], then 10 with the length needed; the buffer then stays as it is.
pub fn write_records(
    records: &[u8],
    costs: &[u8],
    buffer: &mut [u8],
    way: Way,
) -> Result<usize, Refusal> {
    put(&of_records(records, costs, way)?, buffer)
}

/// What a lent buffer holds after the text for a sheet's core was asked for, and the text's length.
///
/// # Errors
///
/// As [`of_sheet`], then 10 with the length needed; the buffer then stays as it is.
pub fn write_core(sheet: &[u8], core: u64, buffer: &mut [u8], way: Way) -> Result<usize, Refusal> {
    put(&of_sheet(sheet, core, way)?, buffer)
}

/// The demand of lent records at a length; 0 where they are refused, and beyond [`LENGTH_MOST`].
///
/// ```
/// assert_eq!(plain::why::demand_at(&[], &[0; 36], 7), 0);
/// ```
#[must_use]
pub fn demand_at(records: &[u8], costs: &[u8], length: u64) -> u64 {
    match records::read(records, costs) {
        Ok(core) if length <= LENGTH_MOST => core.demand(length),
        _ => 0,
    }
}
