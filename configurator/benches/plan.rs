//! How fast the planner is, by counts and by time, against a program that does it the papers' way.
//!
//! `cargo bench --bench plan` prints tables; behind `--` it takes `--json` (one object instead),
//! `--quick` (a tenth of the sheets), `--svg DIR` (plots besides), and `--spin NAME`, which only has
//! the library plan the workload of that name for five seconds, for a profiler to look on.
//! `--first-fit` only counts the sheets that the walk plans, and those that first fit would.
//! `--why` only counts and times what it costs to say why.
//! `--diff` only times what it costs to set two plans side by side.
//! `--core LIST` only looks at the core of such pieces as `1/2, 3/7`, a budget in a period.
//! `--hunt SECONDS` searches for slow inputs instead, from the seed in the environment variable
//! `SPARDIMPLE_SEED`.
//!
//! Every workload is planned by the library, by its algorithms once more in plain Rust
//! ([`counted`]), which are counted and whose listings must be the library's, and by the papers'
//! program ([`papers`]). Times of all three are taken in one process, in turns, from the bytes of
//! a sheet to those of its listing.

#![warn(clippy::all, clippy::pedantic)]
#![allow(
    clippy::cast_precision_loss,
    clippy::cast_possible_truncation,
    clippy::cast_sign_loss
)] // counts become means, nanoseconds ratios, and utilisations ticks

mod counted;
mod diff;
mod first_fit;
mod hunts;
mod loads;
mod papers;
mod report;
mod sheets;
mod tally;
mod why;

use std::env;
use std::path::PathBuf;
use std::process;
use std::time::{Duration, Instant};

use configurator::{ffi, plan_into, Answer, Listed};

use counted::{Lean, Verdict};
use inputs::random::{self, Random};
use loads::{Load, Slow};
use papers::Papers;
use report::{median, Measured, SlowCore, Timed, COLUMNS};
use sheets::{Placed, Sheet};
use tally::{Counts, Silent};

/// A part that stands apart from the rest of what is measured.
#[derive(Clone, Copy)]
enum Part {
    FirstFit,
    Why,
    Diff,
}

/// What the command line asks for.
#[derive(Default)]
struct Options {
    json: bool,
    quick: bool,
    only: Option<Part>,
    svg: Option<PathBuf>,
    spin: Option<String>,
    hunt: Option<u64>,
    core: Option<String>,
}

fn options() -> Options {
    let mut options = Options::default();
    let mut words = env::args().skip(1);
    while let Some(word) = words.next() {
        match word.as_str() {
            "--bench" => {} // cargo says so
            "--json" => options.json = true,
            "--quick" => options.quick = true,
            "--first-fit" => options.only = Some(Part::FirstFit),
            "--why" => options.only = Some(Part::Why),
            "--diff" => options.only = Some(Part::Diff),
            "--svg" => options.svg = words.next().map(PathBuf::from),
            "--spin" => options.spin = words.next(),
            "--core" => options.core = words.next(),
            "--hunt" => options.hunt = words.next().and_then(|word| word.parse().ok()),
            _ => {
                eprintln!("plan [--json] [--quick] [--first-fit] [--why] [--diff] [--svg DIR] [--spin NAME] [--core LIST] [--hunt SECONDS], not {word}");
                process::exit(2);
            }
        }
    }
    options
}

fn main() {
    let options = options();
    if let Some(name) = options.spin {
        return spin(&name);
    }
    if let Some(list) = options.core {
        let core = loads::core_of(&list).expect("a list of budgets in periods");
        return println!("{}", report::tables(&[], &[measure_slow(&core)]));
    }
    if let Some(seconds) = options.hunt {
        return hunt(Duration::from_secs(seconds));
    }
    let (each, rounds) = if options.quick { (1, 3) } else { (10, 9) };
    if let Some(part) = options.only {
        let loads = loads::loads(each);
        let text = match part {
            Part::FirstFit => first_fit::table(&loads),
            Part::Why => why::tables(&loads, &loads::slow()),
            Part::Diff => diff::table(&loads),
        };
        return println!("{text}");
    }
    let mut measured = Vec::new();
    for load in loads::loads(each) {
        eprintln!("{} ({} sheets)", load.name, load.sheets.len());
        measured.push(measure(&load, rounds));
    }
    let slow: Vec<SlowCore> = loads::slow().iter().map(measure_slow).collect();
    if options.json {
        println!("{:#}", report::json(&measured, &slow));
    } else {
        println!("{}", report::tables(&measured, &slow));
    }
    if let Some(folder) = options.svg {
        report::plots(&folder, &measured).expect("the plots can be written");
    }
}

/// The library's listing, or the place of the task that the walk sticks at.
fn library(sheet: &[u8], buffer: &mut [u8]) -> Result<usize, usize> {
    match plan_into(sheet, buffer) {
        Ok(Listed::Written(length)) => Ok(length),
        Ok(Listed::Refused(refusal)) => Err(refusal.carries() as usize),
        Err(unknown) => panic!("{unknown}"),
    }
}

/// Has the library plan a workload for five seconds.
fn spin(name: &str) {
    let mut buffer = vec![0; 8_192];
    let loads = loads::loads(10);
    let load = loads.iter().find(|load| load.name == name);
    let sheets = &load.expect("there is such a workload").sheets;
    let (start, mut plans) = (Instant::now(), 0);
    while start.elapsed().as_secs() < 5 {
        plans += sheets.len();
        for bytes in sheets {
            let _ = library(bytes, &mut buffer);
        }
    }
    println!("{plans} plans");
}

/// Searches for slow inputs.
fn hunt(time: Duration) {
    let random = &mut Random::new(random::seed());
    let (candidates, sheet) = hunts::splits(time / 2, random);
    println!("{candidates} candidates for one split:\n{sheet}");
    let (steps, core) = hunts::climbs(time / 2, random);
    println!("{steps} steps to a busy length, budgets and periods {core:?}");
}

/// Counts and times one workload.
fn measure(load: &Load, rounds: usize) -> Measured {
    let mut buffer = vec![0; 8_192];
    let mut lean = Lean::new(Counts::default());
    let mut theirs = Papers::new(Counts::default());
    let mut next = Lean::next(Counts::default());
    let mut spanned = Papers::new(Silent);
    spanned.whole_span = true;
    let mut measured = Measured {
        name: load.name.clone(),
        source: load.source,
        sheets: load.sheets.len(),
        ..Measured::default()
    };
    let mut questions = Vec::new();
    for bytes in &load.sheets {
        let sheet = sheets::read(bytes).expect("a sheet that is read");
        let ours = library(bytes, &mut buffer);
        let walked = sheets::walk(&sheet, &mut lean);
        match &walked {
            Ok(placed) => {
                let listing = sheets::write(&sheet, placed);
                assert_eq!(ours.map(|length| &buffer[..length]), Ok(&listing[..]));
                measured.planned += 1;
                questions.extend(asked(&sheet, placed));
            }
            Err(task) => assert_eq!(ours, Err(*task)),
        }
        let text = |placed: &Vec<Placed>| sheets::write(&sheet, placed);
        let listing = walked.as_ref().map(text);
        assert_eq!(listing, sheets::walk(&sheet, &mut next).as_ref().map(text));
        if let Ok(placed) = sheets::walk(&sheet, &mut theirs) {
            measured.papers_planned += 1;
            measured.papers_wrong += usize::from(!all_pass(&sheet, &placed));
            measured.papers_same += usize::from(listing == Ok(text(&placed)));
        }
        if let Ok(placed) = sheets::walk(&sheet, &mut spanned) {
            measured.spanned_planned += 1;
            measured.spanned_wrong += usize::from(!all_pass(&sheet, &placed));
        }
    }
    measured.counts = lean.tally;
    measured.next = next.tally;
    measured.papers = theirs.tally;
    measured.plan = time_plans(&load.sheets, rounds);
    questions.truncate(4_000);
    measured.verdict = time_verdicts(&questions, rounds);
    measured
}

/// Whether the library passes each core of a plan.
fn all_pass(sheet: &Sheet<'_>, placed: &[Placed]) -> bool {
    let passes = |(records, costs): &Question| ffi::verdict(records, costs) == 0;
    rows(sheet, placed).iter().all(passes)
}

/// The cores of a plan that have pieces.
fn rows(sheet: &Sheet<'_>, placed: &[Placed]) -> Vec<Question> {
    let costs = bytes_of(&sheet.costs.numbers());
    let mut rows = vec![(Vec::new(), costs); sheet.cores];
    for piece in placed {
        rows[piece.core].0.extend(record(piece.kind, &piece.fields));
    }
    rows.retain(|(records, _)| !records.is_empty());
    rows
}

/// A record as lent bytes.
fn record(kind: u8, fields: &[u64; 6]) -> Vec<u8> {
    let mut bytes = vec![kind, 0, 0, 0];
    bytes.extend(bytes_of(fields));
    bytes
}

/// Numbers as lent bytes.
fn bytes_of(numbers: &[u64]) -> Vec<u8> {
    let four = |&number: &u64| {
        u32::try_from(number)
            .expect("within the sizes")
            .to_le_bytes()
    };
    numbers.iter().flat_map(four).collect()
}

/// Lent records and costs.
type Question = (Vec<u8>, Vec<u8>);

/// What the walk that ends in these pieces asks the verdict: each core with a whole task more,
/// placed there or not.
fn asked(sheet: &Sheet<'_>, placed: &[Placed]) -> Vec<Question> {
    let costs = bytes_of(&sheet.costs.numbers());
    let mut questions = Vec::new();
    let mut row: Vec<u8> = Vec::new();
    let mut here = 0;
    for piece in placed {
        let whole = record(0, &sheet.tasks[piece.task].times);
        if piece.kind == 2 {
            row.clear();
        } else {
            if piece.core != here {
                questions.push(([&row[..], &whole].concat(), costs.clone()));
                row.clear();
            }
            questions.push(([&row[..], &whole].concat(), costs.clone()));
        }
        here = piece.core;
        row.extend(record(piece.kind, &piece.fields));
    }
    questions
}

/// Nanoseconds that a call takes, and what it gives.
fn clocked<R>(call: impl FnOnce() -> R) -> (f64, R) {
    let start = Instant::now();
    let given = call();
    (start.elapsed().as_nanos() as f64, given)
}

/// Plans each sheet in turns; the median of the rounds stands for a sheet.
fn time_plans(sheets: &[Vec<u8>], rounds: usize) -> Timed {
    let mut buffer = vec![0; 8_192];
    let mut table = Timed::default();
    for bytes in sheets {
        let sheet = sheets::read(bytes).expect("a sheet that is read");
        let bad = [&bytes[..], b"fit\tno-task\tno-part\n"].concat();
        let mut columns: [Vec<f64>; COLUMNS] = Default::default();
        for round in 0..=rounds {
            let (library_took, listed) = clocked(|| library(bytes, &mut buffer));
            let (papers_took, papers) =
                clocked(|| sheets::plan(bytes, &mut Papers::new(Silent)).is_ok());
            let (copy_took, copy) = clocked(|| sheets::plan(bytes, &mut Lean::new(Silent)));
            let (walk_took, walked) =
                clocked(|| sheets::walk(&sheet, &mut Papers::new(Silent)).is_ok());
            let (blind_took, blind) = clocked(|| {
                let mut papers = Papers::new(Silent);
                papers.asks_usage = false;
                sheets::plan(bytes, &mut papers).is_ok()
            });
            let (next_took, next) = clocked(|| sheets::plan(bytes, &mut Lean::next(Silent)));
            let (reading_took, refused) = clocked(|| library(&bad, &mut buffer));
            assert_eq!(listed, copy.map(|listing| listing.len()));
            assert_eq!(listed, next.map(|listing| listing.len()));
            assert_eq!([papers; 2], [walked, blind]);
            assert!(refused.is_err());
            if round > 0 {
                let all = [
                    library_took,
                    papers_took,
                    copy_took,
                    walk_took,
                    blind_took,
                    next_took,
                    reading_took,
                ];
                put(&mut columns, all);
            }
        }
        table.push(columns.map(|column| median(&column)));
    }
    table
}

/// One time more in each column.
fn put(columns: &mut [Vec<f64>; COLUMNS], took: [f64; COLUMNS]) {
    for (column, took) in columns.iter_mut().zip(took) {
        column.push(took);
    }
}

/// Judges each core in turns; the median of the rounds stands for a core.
fn time_verdicts(questions: &[Question], rounds: usize) -> Timed {
    const CALLS: usize = 4;
    let each = |took: f64| took / CALLS as f64;
    let mut table = Timed::default();
    for (records, costs) in questions {
        let mut columns: [Vec<f64>; COLUMNS] = Default::default();
        for round in 0..=rounds {
            let passes = || ffi::verdict(records, costs) == 0;
            let (library_took, ours) = clocked(|| (0..CALLS).filter(|_| passes()).count());
            let passes = || papers_verdict(records, costs);
            let (papers_took, theirs) = clocked(|| (0..CALLS).filter(|_| passes()).count());
            let passes = || lean_verdict(records, costs) == Verdict::Passes;
            let (copy_took, copy) = clocked(|| (0..CALLS).filter(|_| passes()).count());
            assert_eq!(ours, copy);
            assert!(theirs <= CALLS);
            if round > 0 {
                let mut all = [0.0; COLUMNS];
                all[..3].copy_from_slice(&[each(library_took), each(papers_took), each(copy_took)]);
                put(&mut columns, all);
            }
        }
        table.push(columns.map(|column| median(&column)));
    }
    table
}

/// The papers' answer on lent bytes.
fn papers_verdict(records: &[u8], costs: &[u8]) -> bool {
    let (core, stall) = sheets::lanes(records, costs);
    Papers::new(Silent).schedulable(&core, stall)
}

/// The counted copy's answer on lent bytes.
fn lean_verdict(records: &[u8], costs: &[u8]) -> Verdict {
    let (core, stall) = sheets::lanes(records, costs);
    Lean::new(Silent).judge(&core, stall)
}

/// Counts and times the verdict on a core made to be slow, once.
fn measure_slow(slow: &Slow) -> SlowCore {
    eprintln!("slow core {}", slow.name);
    let costs = [0; 36];
    let (core, stall) = sheets::lanes(&slow.records, &costs);
    let mut lean = Lean::new(Counts::default());
    let mut theirs = Papers::new(Counts::default());
    let verdict = lean.judge(&core, stall);
    let _ = theirs.schedulable(&core, stall);
    let (ours, answer) = clocked(|| configurator::verdict(&slow.records, &costs));
    let expected = match verdict {
        Verdict::Passes => Answer::Passes,
        Verdict::Overloaded(t) => Answer::Overloaded(t),
        Verdict::Undecided => Answer::Undecided,
    };
    assert_eq!(answer, Ok(expected));
    let (papers, _) = clocked(|| papers_verdict(&slow.records, &costs));
    SlowCore {
        name: slow.name.clone(),
        verdict: format!("{verdict:?}"),
        counts: lean.tally,
        papers: theirs.tally,
        ours,
        theirs: papers,
    }
}
