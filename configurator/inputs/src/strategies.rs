//! Sheets, whole and damaged, that shrink: where one of them fails a test, ever smaller ones are
//! tried, and the smallest that fails is told.

use std::fmt;

use proptest::array::uniform9;
use proptest::collection::vec;
use proptest::option::weighted;
use proptest::prelude::*;
use proptest::sample::{select, Index};
use proptest::test_runner::{Config, RngAlgorithm, TestCaseError, TestError, TestRng, TestRunner};

use crate::random::Random;
use crate::sheets::{Damage, Sheet, SheetDraw, FIELDS, NAMES};

/// A sheet, and the damages that are done to its bytes.
#[derive(Clone, PartialEq, Eq)]
pub struct Damaged {
    /// The sheet.
    pub sheet: Sheet,
    /// The damages, in turn.
    pub damages: Vec<Damage>,
}

impl Damaged {
    /// The bytes that are left of it.
    #[must_use]
    pub fn bytes(&self) -> Vec<u8> {
        let whole = self.sheet.bytes();
        let damaged = |bytes: Vec<u8>, damage: &Damage| damage.of(&bytes);
        self.damages.iter().fold(whole, damaged)
    }
}

impl fmt::Debug for Damaged {
    /// The bytes as text, and once more as Rust writes them.
    fn fmt(&self, f: &mut fmt::Formatter<'_>) -> fmt::Result {
        let bytes = self.bytes();
        let (text, literal) = (String::from_utf8_lossy(&bytes), bytes.escape_ascii());
        write!(f, "{text}b\"{literal}\"\nafter {:?}", self.damages)
    }
}

/// Sheets, most of them within the rules, some with names that differ in little and some with about
/// as many parts and tasks as there may be; and up to two damages to each.
pub fn damaged_sheets(draw: SheetDraw) -> BoxedStrategy<Damaged> {
    let damaged = (vec(damage(), 0..=2), drawn_sheets(draw, [8, 1, 1]));
    let damaged = damaged.prop_map(|(damages, sheet)| Damaged { sheet, damages });
    damaged.boxed()
}

/// Such sheets, by how often they are of each kind.
pub(crate) fn drawn_sheets(
    draw: SheetDraw,
    [whole, near, crowd]: [u32; 3],
) -> impl Strategy<Value = Sheet> {
    prop_oneof![
        whole => whole_sheets(draw),
        near => near_names(draw),
        crowd => crowds(draw),
    ]
}

/// Sheets that break no rule, but may be refused with 7.
fn whole_sheets(draw: SheetDraw) -> impl Strategy<Value = Sheet> {
    let tasks = 3 * usize::try_from(draw.cores).unwrap_or(usize::MAX);
    sheets(draw, vec(entry(draw, [6, 1, 3]), 0..=tasks), 90, numbered)
}

/// Sheets with about as many parts and tasks as there may be, or a few more. Each can be left out, so
/// a smaller one may have few.
fn crowds(draw: SheetDraw) -> impl Strategy<Value = Sheet> {
    let crowd = vec(weighted(0.999, entry(draw, [40, 1, 1])), 60..=68);
    let crowd = crowd.prop_map(|some| some.into_iter().flatten().collect());
    sheets(draw, crowd, 2, numbered)
}

/// Sheets whose names differ in little. In some, one name has become another: a part or a task may
/// come twice then, or a task be fitted with a part that isn't there.
fn near_names(draw: SheetDraw) -> impl Strategy<Value = Sheet> {
    let near = |_: &str, number: usize| NAMES[number].to_owned();
    let entries = vec(entry(draw, [6, 3, 1]), 1..=NAMES.len());
    let other = weighted(0.4, (any::<Index>(), select(NAMES.to_vec())));
    let drawn = (other, sheets(draw, entries, 60, near));
    drawn.prop_map(|(other, mut sheet)| {
        if let Some((place, name)) = other {
            let parts = sheet.parts.iter_mut().map(|(part, _)| part);
            let fits = sheet.fits.iter_mut().flat_map(|(task, part)| [task, part]);
            let mut names: Vec<&mut String> = parts.chain(fits).collect();
            let place = place.index(names.len());
            name.clone_into(names[place]);
        }
        sheet
    })
}

/// A part and a task that are `p` and `t` with a number.
fn numbered(kind: &str, number: usize) -> String {
    format!("{kind}{number}")
}

/// What an entry adds to a sheet. A part and its task go together, so that a smaller sheet has no
/// parts left over.
#[derive(Clone, Copy, Debug)]
enum Adds {
    /// A part, and a task fitted with it.
    Both,
    /// A part alone.
    Part,
    /// A task fitted with one of the parts above, if there is one.
    Task(Index),
}

/// An entry of a sheet, by how often it adds both, a part alone, and a task alone.
fn entry(draw: SheetDraw, [both, part, task]: [u32; 3]) -> impl Strategy<Value = (Adds, Times)> {
    let adds = prop_oneof![
        both => Just(Adds::Both),
        part => Just(Adds::Part),
        task => any::<Index>().prop_map(Adds::Task),
    ];
    (adds, times(draw))
}

/// Sheets of such entries, each part with up to that share of a core in hundredths. What comes first
/// in the tuple shrinks first: lines go while the numbers that keep the cores busy are still there.
fn sheets(
    draw: SheetDraw,
    entries: impl Strategy<Value = Vec<(Adds, Times)>>,
    share: u64,
    name: impl Fn(&str, usize) -> String,
) -> impl Strategy<Value = Sheet> {
    let grain = select(vec![1, 1, 1, 1, 2, 5]);
    let drawn = (entries, 1..=draw.cores, grain, costs(draw), 1..=share);
    drawn.prop_map(move |(entries, cores, grain, costs, share)| {
        let mut sheet = Sheet {
            cores,
            grain,
            costs,
            parts: Vec::new(),
            fits: Vec::new(),
        };
        for (adds, times) in entries {
            let (parts, fits) = (&mut sheet.parts, &mut sheet.fits);
            let part = match adds {
                Adds::Task(above) if !parts.is_empty() => parts[above.index(parts.len())].0.clone(),
                _ => {
                    let part = name("p", parts.len());
                    parts.push((part.clone(), times.numbers(share)));
                    part
                }
            };
            if !matches!(adds, Adds::Part) {
                fits.push((name("t", fits.len()), part));
            }
        }
        sheet
    })
}

/// The nine costs.
fn costs(draw: SheetDraw) -> impl Strategy<Value = [u64; 9]> {
    uniform9(charge(draw))
}

/// A cost or a cache charge; about half of them are 0.
pub(crate) fn charge(draw: SheetDraw) -> impl Strategy<Value = u64> {
    prop_oneof![Just(0), 0..=draw.cost]
}

fn times(draw: SheetDraw) -> impl Strategy<Value = Times> {
    let drawn = (
        1..=draw.period,
        0..=THOUSAND,
        prop_oneof![2 => Just(0), 1 => 0..=THOUSAND],
        prop_oneof![2 => Just(0), 1 => 0..=draw.jitter],
        charge(draw),
        charge(draw),
    );
    drawn.prop_map(
        |(period, budget, early, jitter, preemption, migration)| Times {
            period,
            budget,
            early,
            rest: [jitter, preemption, migration],
        },
    )
}

const THOUSAND: u64 = 1_000;

/// What a part's times are made of. The budget is in thousandths of the most that it may be, and so
/// is what the deadline comes before the period's end.
#[derive(Clone, Copy, Debug)]
struct Times {
    period: u64,
    budget: u64,
    early: u64,
    rest: [u64; 3],
}

impl Times {
    /// C, D, T, J, P, M, within the sizes, where a part takes at most that share of a core, in
    /// hundredths.
    fn numbers(self, share: u64) -> [u64; 6] {
        let budget = self.period * share * self.budget / (100 * THOUSAND);
        let budget = budget.clamp(1, self.period);
        let deadline = self.period - (self.period - budget) * self.early / THOUSAND;
        let [jitter, preemption, migration] = self.rest;
        [budget, deadline, self.period, jitter, preemption, migration]
    }
}

/// A damage. Most of its places are near the beginning: there a smaller sheet, which has fewer lines
/// behind them, is still damaged in the same place.
pub(crate) fn damage() -> impl Strategy<Value = Damage> {
    let line = || prop_oneof![4 => 0..6_u64, 1 => 0..70_u64];
    let at = || prop_oneof![4 => 0..100_u64, 1 => 0..1_000_u64];
    let bytes = b"\t\n09azAZ-. _".to_vec();
    prop_oneof![
        2 => (line(), 0..10_u64, select(FIELDS.to_vec()))
            .prop_map(|(line, at, field)| Damage::Field(line, at, field)),
        1 => line().prop_map(Damage::DropLine),
        1 => (line(), line()).prop_map(|(one, other)| Damage::DoubleLine(one, other)),
        1 => (line(), line()).prop_map(|(one, other)| Damage::SwapLines(one, other)),
        1 => at().prop_map(Damage::Cut),
        1 => at().prop_map(Damage::Drop),
        1 => at().prop_map(Damage::Double),
        1 => (at(), select(bytes)).prop_map(|(at, byte)| Damage::Change(at, byte)),
        1 => (at(), any::<u8>()).prop_map(|(at, byte)| Damage::Change(at, byte)),
    ]
}

/// Tries a property on that many values. Where it fails, gives why, and the smallest value found that
/// fails. No file is written.
///
/// # Panics
///
/// There are no such values.
pub fn smallest_failure<S: Strategy>(
    values: &S,
    cases: u64,
    random: &mut Random,
    property: impl Fn(&S::Value) -> Result<(), String>,
) -> Option<(String, S::Value)> {
    let seed = [0; 16].map(|_: u8| random.byte());
    let config = Config {
        cases: u32::try_from(cases).unwrap_or(u32::MAX),
        failure_persistence: None,
        max_shrink_iters: 100_000,
        ..Config::default()
    };
    let seeded = TestRng::from_seed(RngAlgorithm::XorShift, &seed);
    let mut runner = TestRunner::new_with_rng(config, seeded);
    let tried = runner.run(values, |value| {
        property(&value).map_err(TestCaseError::fail)
    });
    match tried {
        Ok(()) => None,
        Err(TestError::Fail(why, smallest)) => Some((why.to_string(), smallest)),
        Err(TestError::Abort(why)) => panic!("no values to try: {why}"),
    }
}
