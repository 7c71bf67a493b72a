//! What was measured, as tables, as JSON and as plots.

use std::fmt::Write as _;
use std::fs;
use std::io;
use std::path::Path;

use serde_json::{json, Value};

use crate::loads::Source;
use crate::tally::Counts;

/// What is timed.
#[derive(Clone, Copy)]
pub enum Column {
    /// The library.
    Library,
    /// The papers' program.
    Papers,
    /// The library's algorithms by the Rust compiler.
    ByRustc,
    /// The papers' program without reading and writing.
    PapersWalk,
    /// The papers' program without a look at the utilisation.
    PapersBlind,
    /// The same with the next ideas.
    Next,
    /// The library on the same sheet with a bad line behind: it reads, and refuses.
    Reading,
}

/// How many columns there are.
pub const COLUMNS: usize = 7;

/// Times in nanoseconds, one for each sheet or core in each column.
#[derive(Default)]
pub struct Timed {
    columns: [Vec<f64>; COLUMNS],
}

impl Timed {
    /// One more sheet or core.
    pub fn push(&mut self, times: [f64; COLUMNS]) {
        for (column, time) in self.columns.iter_mut().zip(times) {
            column.push(time);
        }
    }

    /// The median of a column, in microseconds.
    pub fn micros(&self, column: Column) -> f64 {
        median(&self.columns[column as usize]) / 1_000.0
    }

    /// The median over sheets of the one column's time in the other's.
    pub fn ratio_to(&self, column: Column, other: Column) -> f64 {
        let ours = &self.columns[column as usize];
        let pairs = ours.iter().zip(&self.columns[other as usize]);
        let ratios: Vec<f64> = pairs.map(|(ours, theirs)| ours / theirs).collect();
        median(&ratios)
    }

    /// The same in the papers' program's.
    pub fn ratio(&self, column: Column) -> f64 {
        self.ratio_to(column, Column::Papers)
    }

    /// The library's sum in the papers' program's.
    pub fn sums(&self) -> f64 {
        let sum = |column: Column| self.columns[column as usize].iter().sum::<f64>();
        sum(Column::Library) / sum(Column::Papers)
    }

    /// What the library takes beyond reading in what the papers' program does, the median over
    /// sheets.
    pub fn walk_ratio(&self) -> f64 {
        let [ours, _, _, walk, _, _, reading] = &self.columns;
        let rest = ours.iter().zip(reading).map(|(all, read)| all - read);
        let ratios: Vec<f64> = rest.zip(walk).map(|(ours, walk)| ours / walk).collect();
        median(&ratios)
    }
}

/// One workload.
#[derive(Default)]
pub struct Measured {
    /// Its name.
    pub name: String,
    /// Where it comes from.
    pub source: Source,
    /// How many sheets it has.
    pub sheets: usize,
    /// How many of them have a plan.
    pub planned: usize,
    /// How many the papers' program plans.
    pub papers_planned: usize,
    /// How many of its plans have a core that the library does not pass.
    pub papers_wrong: usize,
    /// The same where QPA starts at the judged span's top: its plans, and those that do not pass.
    pub spanned_planned: usize,
    /// Those that do not pass.
    pub spanned_wrong: usize,
    /// How many of its plans are the library's.
    pub papers_same: usize,
    /// What the library's algorithms would do with the next idea.
    pub next: Counts,
    /// What the library's algorithms do.
    pub counts: Counts,
    /// What the papers' program does.
    pub papers: Counts,
    /// Plan times.
    pub plan: Timed,
    /// Verdict times.
    pub verdict: Timed,
}

/// One core made to be slow.
pub struct SlowCore {
    /// Its budgets in periods.
    pub name: String,
    /// What it is.
    pub verdict: String,
    /// What the library's algorithms do.
    pub counts: Counts,
    /// What the papers' program does.
    pub papers: Counts,
    /// The library's time in nanoseconds.
    pub ours: f64,
    /// The papers' program's.
    pub theirs: f64,
}

/// The median; of nothing it is 0.
pub fn median(numbers: &[f64]) -> f64 {
    let mut sorted = numbers.to_vec();
    sorted.sort_by(f64::total_cmp);
    match sorted.len() {
        0 => 0.0,
        n if n % 2 == 1 => sorted[n / 2],
        n => (sorted[n / 2 - 1] + sorted[n / 2]) / 2.0,
    }
}

/// Mean, median, 99th percentile and maximum of counts.
#[derive(Clone, Copy, Default)]
struct Spread {
    mean: f64,
    median: u64,
    high: u64,
    most: u64,
}

fn spread(counts: &[u64]) -> Spread {
    let mut sorted = counts.to_vec();
    sorted.sort_unstable();
    let n = sorted.len();
    if n == 0 {
        return Spread::default();
    }
    Spread {
        mean: sorted.iter().sum::<u64>() as f64 / n as f64,
        median: sorted[n / 2],
        high: sorted[(n * 99 / 100).min(n - 1)],
        most: sorted[n - 1],
    }
}

/// Parts in hundredths of a whole.
fn share(part: usize, whole: usize) -> String {
    if whole == 0 {
        return "–".to_owned();
    }
    format!("{:.0} %", 100.0 * part as f64 / whole as f64)
}

/// A ratio, where there is one.
fn times(ratio: f64) -> String {
    if ratio > 0.0 {
        format!("{ratio:.2}")
    } else {
        "–".to_owned()
    }
}

/// A count with its digits in groups of three.
pub fn grouped(count: u64) -> String {
    let digits = count.to_string();
    let mut text = String::new();
    for (place, digit) in digits.chars().enumerate() {
        if place > 0 && (digits.len() - place) % 3 == 0 {
            text.push(',');
        }
        text.push(digit);
    }
    text
}

/// Whether a target is met.
pub fn met(yes: bool) -> &'static str {
    if yes {
        "met"
    } else {
        "missed"
    }
}

/// All tables, in Markdown.
pub fn tables(loads: &[Measured], slow: &[SlowCore]) -> String {
    [
        targets(loads, slow),
        counts_table(loads),
        settled_table(loads),
        work_table(loads),
        next_table(loads),
        plan_table(loads),
        wrong_table(loads),
        verdict_table(loads),
        slow_table(slow),
    ]
    .join("\n")
}

fn targets(loads: &[Measured], slow: &[SlowCore]) -> String {
    let papers: Vec<&Measured> = loads
        .iter()
        .filter(|load| load.source == Source::Paper)
        .collect();
    let asked: Vec<&Measured> = loads
        .iter()
        .filter(|load| load.source != Source::Made)
        .collect();
    let means = |load: &&Measured| spread(&load.counts.candidates).mean;
    let mean = papers.iter().map(means).fold(0.0, f64::max);
    let tried = |load: &Measured| spread(&load.counts.candidates).most;
    let most = papers.iter().map(|load| tried(load)).max().unwrap_or(0);
    let any = loads.iter().map(tried).max().unwrap_or(0);
    let of_loads = loads.iter().map(|load| &load.counts);
    let all = of_loads.chain(slow.iter().map(|core| &core.counts));
    let climb = all.map(|counts| spread(&counts.steps).most).max();
    let lengths = |load: &&Measured| spread(&load.counts.lengths).median;
    let looked = papers.iter().map(lengths).max().unwrap_or(0);
    let plans: Vec<f64> = asked
        .iter()
        .map(|load| load.plan.ratio(Column::Library))
        .collect();
    let plan_most = plans.iter().copied().fold(0.0, f64::max);
    let plan_median = median(&plans);
    let verdicts = asked.iter().map(|load| load.verdict.ratio(Column::Library));
    let verdict_most = verdicts.fold(0.0, f64::max);
    let climb = climb.unwrap_or(0);
    let mut text = String::from("| target | asked | measured | |\n|---|---|---|---|\n");
    let mut row = |what: &str, asked: &str, measured: String, yes: bool| {
        let _ = writeln!(text, "| {what} | {asked} | {measured} | {} |", met(yes));
    };
    row(
        "candidates for a split, papers' workloads, greatest mean",
        "3",
        format!("{mean:.2}"),
        mean <= 3.0,
    );
    row("the same, most in any", "20", most.to_string(), most <= 20);
    row(
        "candidates for a split, any input here",
        "50,000",
        grouped(any),
        any <= 50_000,
    );
    row(
        "steps to a busy length, any input here",
        "1,000,000",
        grouped(climb),
        climb <= 1_000_000,
    );
    row(
        "lengths looked at in a verdict, greatest median",
        "3",
        looked.to_string(),
        looked <= 3,
    );
    row(
        "plan time, greatest ratio of a workload",
        "2",
        times(plan_most),
        plan_most <= 2.0,
    );
    row(
        "plan time, median ratio of the workloads",
        "1",
        times(plan_median),
        plan_median <= 1.0,
    );
    row(
        "verdict time, greatest ratio of a workload",
        "1.5",
        times(verdict_most),
        verdict_most <= 1.5,
    );
    text
}

fn counts_table(loads: &[Measured]) -> String {
    let mut text = String::from(
        "| workload | sheets | planned | splits | candidates, mean (most) | lengths, median (mean, p99, most) | climb, mean (most) |\n|---|---|---|---|---|---|---|\n",
    );
    for load in loads {
        let counts = &load.counts;
        let candidates = spread(&counts.candidates);
        let lengths = spread(&counts.lengths);
        let steps = spread(&counts.steps);
        let _ = writeln!(
            text,
            "| {} | {} | {} | {} | {:.2} ({}) | {} ({:.1}, {}, {}) | {:.1} ({}) |",
            load.name,
            load.sheets,
            share(load.planned, load.sheets),
            counts.candidates.len(),
            candidates.mean,
            candidates.most,
            lengths.median,
            lengths.mean,
            lengths.high,
            lengths.most,
            steps.mean,
            steps.most,
        );
    }
    text
}

fn settled_table(loads: &[Measured]) -> String {
    let mut text = String::from(
        "| workload | candidates | allowed | no tight window | last falls | last ends | job due | short cap | no busy length | whole cap | own blocking |\n|---|---|---|---|---|---|---|---|---|---|---|\n",
    );
    for load in loads {
        let settled = &load.counts.settled;
        let columns: Vec<String> = settled.iter().map(u64::to_string).collect();
        let _ = writeln!(
            text,
            "| {} | {} | {} |",
            load.name,
            settled.iter().sum::<u64>(),
            columns.join(" | ")
        );
    }
    text
}

fn work_table(loads: &[Measured]) -> String {
    let mut text = String::from(
        "| workload | demands | climb steps (leaps, walks) | tight windows | stretches | papers: demands | climb steps | tight windows | evaluations, ratio | divisions, ratio |\n|---|---|---|---|---|---|---|---|---|---|\n",
    );
    for load in loads {
        let (ours, theirs) = (&load.counts, &load.papers);
        let each = |count: u64| count as f64 / load.sheets as f64;
        let _ = writeln!(
            text,
            "| {} | {:.0} | {:.0} ({:.0}, {:.0}) | {:.0} | {:.0} | {:.0} | {:.0} | {:.0} | {:.2} | {:.2} |",
            load.name,
            each(ours.demands),
            each(ours.climbs),
            each(ours.leaps),
            each(ours.walks),
            each(ours.tights),
            each(ours.stretches),
            each(theirs.demands),
            each(theirs.climbs),
            each(theirs.tights),
            ours.evaluations() as f64 / theirs.evaluations().max(1) as f64,
            ours.divisions as f64 / theirs.divisions.max(1) as f64,
        );
    }
    text
}

fn plan_table(loads: &[Measured]) -> String {
    let mut text = String::from(
        "| workload | library, µs | of that reading | papers' program, µs | of that reading and writing | ratio | of the sums | without reading | without a look at the utilisation | same algorithms by rustc |\n|---|---|---|---|---|---|---|---|---|---|\n",
    );
    for load in loads {
        let plan = &load.plan;
        let _ = writeln!(
            text,
            "| {} | {:.1} | {:.1} | {:.1} | {:.1} | {} | {} | {} | {} | {} |",
            load.name,
            plan.micros(Column::Library),
            plan.micros(Column::Reading),
            plan.micros(Column::Papers),
            plan.micros(Column::Papers) - plan.micros(Column::PapersWalk),
            times(plan.ratio(Column::Library)),
            times(plan.sums()),
            times(plan.walk_ratio()),
            times(plan.ratio_to(Column::Library, Column::PapersBlind)),
            times(plan.ratio(Column::ByRustc)),
        );
    }
    text
}

fn wrong_table(loads: &[Measured]) -> String {
    let mut text = String::from(
        "| workload | library's plans | papers' plans | with a core that does not pass | equal to the library's | with a core that does not pass, QPA from t0 + L − 1 |\n|---|---|---|---|---|---|\n",
    );
    for load in loads {
        let _ = writeln!(
            text,
            "| {} | {} | {} | {} | {} | {} |",
            load.name,
            load.planned,
            load.papers_planned,
            share(load.papers_wrong, load.papers_planned),
            share(load.papers_same, load.papers_planned),
            share(load.spanned_wrong, load.spanned_planned),
        );
    }
    text
}

fn next_table(loads: &[Measured]) -> String {
    let mut text = String::from(
        "| workload | divisions, the papers' being 1 | with the next ideas | time by rustc, the papers' being 1 | with the next ideas |\n|---|---|---|---|---|\n",
    );
    for load in loads {
        let theirs = load.papers.divisions.max(1) as f64;
        let _ = writeln!(
            text,
            "| {} | {:.2} | {:.2} | {} | {} |",
            load.name,
            load.counts.divisions as f64 / theirs,
            load.next.divisions as f64 / theirs,
            times(load.plan.ratio(Column::ByRustc)),
            times(load.plan.ratio(Column::Next)),
        );
    }
    text
}

fn verdict_table(loads: &[Measured]) -> String {
    let mut text = String::from(
        "| workload | library, µs | papers' QPA, µs | ratio | ratio of the sums | same algorithms by rustc, ratio |\n|---|---|---|---|---|---|\n",
    );
    for load in loads {
        let verdict = &load.verdict;
        let _ = writeln!(
            text,
            "| {} | {} | {} | {} | {} | {} |",
            load.name,
            times(verdict.micros(Column::Library)),
            times(verdict.micros(Column::Papers)),
            times(verdict.ratio(Column::Library)),
            times(verdict.sums()),
            times(verdict.ratio(Column::ByRustc)),
        );
    }
    text
}

fn slow_table(slow: &[SlowCore]) -> String {
    let mut text = String::from(
        "| budgets in periods | verdict | climb (leaps, walks) | lengths | library, ms | papers: climb | lengths | ms |\n|---|---|---|---|---|---|---|---|\n",
    );
    for core in slow {
        let _ = writeln!(
            text,
            "| {} | {} | {} ({}, {}) | {} | {:.2} | {} | {} | {:.2} |",
            core.name,
            core.verdict,
            grouped(core.counts.climbs),
            grouped(core.counts.leaps),
            grouped(core.counts.walks),
            grouped(core.counts.demands),
            core.ours / 1e6,
            grouped(core.papers.climbs),
            grouped(core.papers.demands),
            core.theirs / 1e6,
        );
    }
    text
}

/// All that was measured, as one object.
pub fn json(loads: &[Measured], slow: &[SlowCore]) -> Value {
    let loads: Vec<Value> = loads.iter().map(load_json).collect();
    let slow: Vec<Value> = slow.iter().map(slow_json).collect();
    json!({ "seed": inputs::random::SEED, "workloads": loads, "slow_cores": slow })
}

fn load_json(load: &Measured) -> Value {
    json!({
        "name": load.name,
        "sheets": load.sheets,
        "planned": load.planned,
        "counts": counts_json(&load.counts),
        "papers": counts_json(&load.papers),
        "papers_planned": load.papers_planned,
        "papers_wrong": load.papers_wrong,
        "papers_same": load.papers_same,
        "spanned_planned": load.spanned_planned,
        "spanned_wrong": load.spanned_wrong,
        "next": counts_json(&load.next),
        "plan": timed_json(&load.plan),
        "verdict": timed_json(&load.verdict),
    })
}

fn counts_json(counts: &Counts) -> Value {
    let list = |counts: &[u64]| {
        let spread = spread(counts);
        json!({
            "number": counts.len(),
            "mean": thousandths(spread.mean),
            "median": spread.median,
            "p99": spread.high,
            "most": spread.most,
        })
    };
    json!({
        "demands": counts.demands,
        "climb_steps": counts.climbs,
        "leaps": counts.leaps,
        "walks": counts.walks,
        "tight_steps": counts.tights,
        "stretches": counts.stretches,
        "pieces": counts.pieces,
        "divisions": counts.divisions,
        "candidates": list(&counts.candidates),
        "lengths": list(&counts.lengths),
        "climbs": list(&counts.steps),
    })
}

fn timed_json(timed: &Timed) -> Value {
    json!({
        "library_us": thousandths(timed.micros(Column::Library)),
        "papers_us": thousandths(timed.micros(Column::Papers)),
        "by_rustc_us": thousandths(timed.micros(Column::ByRustc)),
        "ratio": thousandths(timed.ratio(Column::Library)),
        "ratio_of_sums": thousandths(timed.sums()),
        "by_rustc_ratio": thousandths(timed.ratio(Column::ByRustc)),
    })
}

/// A number to three places; 0 for one that JSON does not have.
fn thousandths(number: f64) -> f64 {
    if number.is_finite() {
        (number * 1_000.0).round() / 1_000.0
    } else {
        0.0
    }
}

fn slow_json(core: &SlowCore) -> Value {
    json!({
        "pieces": core.name,
        "verdict": core.verdict,
        "climb_steps": core.counts.climbs,
        "leaps": core.counts.leaps,
        "walks": core.counts.walks,
        "lengths": core.counts.demands,
        "library_ms": thousandths(core.ours / 1e6),
        "papers_climb_steps": core.papers.climbs,
        "papers_lengths": core.papers.demands,
        "papers_ms": thousandths(core.theirs / 1e6),
    })
}

/// The plots: plan times and verdict times in the papers' program's.
pub fn plots(folder: &Path, loads: &[Measured]) -> io::Result<()> {
    let plan = |load: &Measured| {
        (
            load.plan.ratio(Column::Library),
            load.plan.ratio(Column::ByRustc),
        )
    };
    let verdict = |load: &Measured| {
        (
            load.verdict.ratio(Column::Library),
            load.verdict.ratio(Column::ByRustc),
        )
    };
    let bars = |of: &dyn Fn(&Measured) -> (f64, f64)| -> Vec<(String, f64, f64)> {
        let bar = |load: &Measured| (load.name.clone(), of(load).0, of(load).1);
        let asked = loads.iter().filter(|load| load.source != Source::Made);
        asked.map(bar).collect()
    };
    fs::create_dir_all(folder)?;
    fs::write(
        folder.join("speed-plan.svg"),
        plot("Plan time, the papers' program being 1", &bars(&plan), 2.0),
    )?;
    fs::write(
        folder.join("speed-verdict.svg"),
        plot(
            "Verdict time, the papers' QPA being 1",
            &bars(&verdict),
            1.5,
        ),
    )
}

/// Bars for each workload, on a logarithmic scale from 1/2 to 32, with lines at 1 and the target.
fn plot(title: &str, bars: &[(String, f64, f64)], target: f64) -> String {
    const LEFT: f64 = 190.0;
    const WIDTH: f64 = 480.0;
    const ROW: f64 = 22.0;
    const TOP: f64 = 52.0;
    let x = |ratio: f64| LEFT + WIDTH * (ratio.clamp(0.5, 32.0).log2() + 1.0) / 6.0;
    let bottom = TOP + ROW * bars.len() as f64;
    let mut svg = format!(
        "<svg xmlns=\"http://www.w3.org/2000/svg\" viewBox=\"0 0 720 {:.0}\" font-family=\"sans-serif\" font-size=\"12\">\n<rect width=\"100%\" height=\"100%\" fill=\"white\"/>\n<text x=\"10\" y=\"18\" font-size=\"14\">{title}</text>\n<rect x=\"10\" y=\"26\" width=\"12\" height=\"8\" fill=\"#2b6cb0\"/><text x=\"26\" y=\"34\">the library</text>\n<rect x=\"110\" y=\"26\" width=\"12\" height=\"8\" fill=\"#cbd5e0\"/><text x=\"126\" y=\"34\">the same algorithms by rustc</text>\n<rect x=\"310\" y=\"26\" width=\"2\" height=\"8\" fill=\"#c53030\"/><text x=\"318\" y=\"34\">the target, {target}</text>\n",
        bottom + 30.0
    );
    for power in -1..=5_i32 {
        let ratio = 2_f64.powi(power);
        let at = x(ratio);
        let label = if power < 0 {
            format!("1/{}", 1 << -power)
        } else {
            (1 << power).to_string()
        };
        let _ = writeln!(
            svg,
            "<line x1=\"{at:.1}\" y1=\"{TOP}\" x2=\"{at:.1}\" y2=\"{bottom}\" stroke=\"#e2e8f0\"/><text x=\"{at:.1}\" y=\"{:.1}\" text-anchor=\"middle\">{label}</text>",
            bottom + 16.0
        );
    }
    for (line, colour) in [(1.0, "#4a5568"), (target, "#c53030")] {
        let at = x(line);
        let _ = writeln!(
            svg,
            "<line x1=\"{at:.1}\" y1=\"{TOP}\" x2=\"{at:.1}\" y2=\"{bottom}\" stroke=\"{colour}\"/>"
        );
    }
    let base = x(1.0);
    for (place, (name, ours, again)) in bars.iter().enumerate() {
        let y = TOP + ROW * place as f64;
        let _ = writeln!(
            svg,
            "<text x=\"{:.1}\" y=\"{:.1}\" text-anchor=\"end\">{name}</text>",
            LEFT - 8.0,
            y + 14.0
        );
        for (ratio, from, height, colour) in
            [(*again, 11.0, 6.0, "#cbd5e0"), (*ours, 3.0, 8.0, "#2b6cb0")]
        {
            if ratio > 0.0 {
                let at = x(ratio);
                let _ = writeln!(
                    svg,
                    "<rect x=\"{:.1}\" y=\"{:.1}\" width=\"{:.1}\" height=\"{height}\" fill=\"{colour}\"/>",
                    at.min(base),
                    y + from,
                    (at - base).abs().max(1.0)
                );
            }
        }
        let _ = writeln!(
            svg,
            "<text x=\"{:.1}\" y=\"{:.1}\" font-size=\"10\">{}</text>",
            x(ours.max(*again)).max(base) + 4.0,
            y + 12.0,
            times(*ours)
        );
    }
    svg + "</svg>\n"
}
