//! What it costs to say why. On the workloads' cores that pass, those of the plans and those that the
//! walk judges on its way, it counts the lengths that the verdict's descent looks at, and all that are
//! looked at to say why. On the cores made to be slow it also times the library and its counted copy.

use std::fmt::Write as _;

use configurator::{ffi, why_records_into, Listed};

use crate::counted::{Lean, Sought, Verdict};
use crate::loads::{Load, Slow, Source};
use crate::report::{grouped, median, met};
use crate::sheets::{self, Lane};
use crate::tally::{Counts, Silent};
use crate::{asked, clocked, rows, Question};

/// The most that the mean ratio of lengths may be on a paper's workload.
const LENGTHS_ASKED: f64 = 4.0;

/// The most that saying why may take on a core made to be slow, the verdict's time being 1.
const TIME_ASKED: f64 = 1.5;

/// Lengths looked at, one of each for a core that passes.
#[derive(Default)]
struct Looks {
    verdict: Vec<f64>,
    why: Vec<f64>,
    ratio: Vec<f64>,
}

impl Looks {
    /// The lengths for each of these cores that passes.
    fn of(cores: &[Question]) -> Self {
        let mut looks = Looks::default();
        for core in cores {
            if let (Verdict::Passes, [verdict, why]) = looks_at(core) {
                looks.verdict.push(verdict as f64);
                looks.why.push(why as f64);
                looks.ratio.push(why as f64 / verdict as f64);
            }
        }
        looks
    }

    /// The mean ratio.
    fn mean(&self) -> f64 {
        self.ratio.iter().sum::<f64>() / self.ratio.len().max(1) as f64
    }

    /// A row of a table.
    fn row(&self) -> String {
        format!(
            "{} | {} | {} | {}",
            self.verdict.len(),
            spread(&self.verdict, 0),
            spread(&self.why, 0),
            spread(&self.ratio, 1)
        )
    }
}

/// The verdict on a core with pieces, how many lengths it looks at, and how many are looked at to say
/// why. What the library shows must be the copy's.
fn looks_at((records, costs): &Question) -> (Verdict, [u64; 2]) {
    let (core, stall) = sheets::lanes(records, costs);
    let mut lean = Lean::new(Counts::default());
    let verdict = lean.judge(&core, stall);
    let looked = lean.tally.demands;
    let (judged, begin, total) = match lean.show(&core, stall) {
        Some(Sought::Least(t, asked)) => (Verdict::Passes, format!("passes\t{t}"), asked),
        Some(Sought::Over(t, asked)) => (Verdict::Overloaded(t), format!("overloaded\t{t}"), asked),
        None => {
            let busy = |q: &Lane| (100_000_000 + q.period - 1) / q.period * q.job();
            let begin = "undecided\t100000000".to_owned();
            (Verdict::Undecided, begin, core.iter().map(busy).sum())
        }
    };
    assert_eq!(verdict, judged);
    let mut buffer = [0; 8_192];
    let written = says_why(records, costs, &mut buffer);
    let text = String::from_utf8_lossy(&buffer[..written]);
    assert!(text.starts_with(&format!("why\t{begin}\t")), "{text}");
    assert!(text.contains(&format!("\ntotal\t{total}\n")), "{text}");
    (verdict, [looked, lean.tally.demands - looked])
}

/// Has the library say why, and gives the text's length.
fn says_why(records: &[u8], costs: &[u8], buffer: &mut [u8]) -> usize {
    match why_records_into(records, costs, buffer) {
        Ok(Listed::Written(length)) => length,
        refused => panic!("{refused:?}"),
    }
}

/// Mean, 99th percentile and maximum.
fn spread(numbers: &[f64], places: usize) -> String {
    let mut sorted = numbers.to_vec();
    sorted.sort_by(f64::total_cmp);
    let n = sorted.len();
    if n == 0 {
        return "–".to_owned();
    }
    let mean = sorted.iter().sum::<f64>() / n as f64;
    let high = sorted[(n * 99 / 100).min(n - 1)];
    format!("{mean:.1} / {high:.places$} / {:.places$}", sorted[n - 1])
}

/// All tables, in Markdown.
pub fn tables(loads: &[Load], slow: &[Slow]) -> String {
    let mut counts = String::from(
        "| workload | cores of plans | verdict | why | ratio | cores of the walk | verdict | why | ratio |\n|---|---|---|---|---|---|---|---|---|\n",
    );
    let (mut most_planned, mut most_walked, mut all) = (0_f64, 0_f64, Looks::default());
    for load in loads {
        eprintln!("{} ({} sheets)", load.name, load.sheets.len());
        let (mut planned, mut walked) = (Vec::new(), Vec::new());
        for bytes in &load.sheets {
            let sheet = sheets::read(bytes).expect("a sheet that is read");
            if let Ok(placed) = sheets::walk(&sheet, &mut Lean::new(Silent)) {
                planned.extend(rows(&sheet, &placed));
                walked.extend(asked(&sheet, &placed));
            }
        }
        let (planned, walked) = (Looks::of(&planned), Looks::of(&walked));
        if load.source == Source::Paper {
            most_planned = most_planned.max(planned.mean());
            most_walked = most_walked.max(walked.mean());
            all.ratio.extend(planned.ratio.iter().chain(&walked.ratio));
        }
        let (planned, walked) = (planned.row(), walked.row());
        let _ = writeln!(counts, "| {} | {planned} | {walked} |", load.name);
    }
    let mut times = String::from(
        "| budgets in periods | lengths of the verdict | to say why | the library's verdict, µs | its time to say why, its verdict's being 1 | the copy's |\n|---|---|---|---|---|---|\n",
    );
    let mut slowest = [0_f64; 2];
    for core in slow {
        eprintln!("slow core {}", core.name);
        let question = (core.records.clone(), vec![0; 36]);
        let (_, [verdict, why]) = looks_at(&question);
        let [took, library, copy] = times_of(&question);
        slowest = [slowest[0].max(library), slowest[1].max(copy)];
        let (name, verdict, why) = (&core.name, grouped(verdict), grouped(why));
        let took = grouped((took / 1000.0).ceil() as u64);
        let _ = writeln!(
            times,
            "| {name} | {verdict} | {why} | {took} | {library:.2} | {copy:.2} |"
        );
    }
    let mut targets = String::from("| target | asked | measured | |\n|---|---|---|---|\n");
    for (what, asked, measured) in [
        (
            "lengths, cores of plans, greatest mean",
            LENGTHS_ASKED,
            most_planned,
        ),
        (
            "lengths, cores of the walk, greatest mean",
            LENGTHS_ASKED,
            most_walked,
        ),
        ("lengths, mean of all cores", LENGTHS_ASKED, all.mean()),
        ("time of the library, slow cores", TIME_ASKED, slowest[0]),
        ("time of the copy, slow cores", TIME_ASKED, slowest[1]),
    ] {
        let met = met(measured <= asked);
        let _ = writeln!(targets, "| {what} | {asked} | {measured:.2} | {met} |");
    }
    [targets, counts, times].join("\n")
}

/// The time of the library's verdict, its time to say why in that, and the copy's: medians of the
/// rounds, after one that does not count.
fn times_of((records, costs): &Question) -> [f64; 3] {
    const ROUNDS: usize = 5;
    let mut buffer = [0; 8_192];
    let (core, stall) = sheets::lanes(records, costs);
    let (mut took, mut library, mut copy) = (Vec::new(), Vec::new(), Vec::new());
    for round in 0..=ROUNDS {
        let (verdict, _) = clocked(|| ffi::verdict(records, costs));
        let (why, _) = clocked(|| says_why(records, costs, &mut buffer));
        let (judged_took, judged) = clocked(|| Lean::new(Silent).judge(&core, stall));
        let (shown_took, shown) = clocked(|| Lean::new(Silent).show(&core, stall));
        assert_eq!(judged == Verdict::Undecided, shown.is_none());
        if round > 0 {
            took.push(verdict);
            library.push(why / verdict);
            copy.push(shown_took / judged_took);
        }
    }
    [median(&took), median(&library), median(&copy)]
}
