//! What it costs to set two plans side by side: the library's time for it, the time in which it plans both
//! sheets being 1, in one run. A pair is a workload's sheet and the same with one task less; where there
//! are 64 tasks, also with all of them under other names, which is the longest text.

use std::fmt::Write as _;

use configurator::ffi::diff_listing;
use configurator::Listed;

use crate::loads::Load;
use crate::report::{grouped, median};
use crate::{clocked, library, sheets};

/// As much as the longest text needs: 158 lines.
const ROOM: usize = 16_384;

/// What pairs of a workload take, one of each for a pair.
#[derive(Default)]
struct Took {
    /// Comparisons of names: each name of both plans with each of the 64 places of both lists.
    names: Vec<f64>,
    lines: Vec<f64>,
    plans: Vec<f64>,
    diff: Vec<f64>,
    ratio: Vec<f64>,
}

impl Took {
    /// Times a pair, if both sheets are planned: medians of the rounds, after one that does not count.
    fn pair(&mut self, first: &[u8], second: &[u8]) {
        const ROUNDS: usize = 5;
        let mut buffer = vec![0; ROOM];
        if library(first, &mut buffer).is_err() || library(second, &mut buffer).is_err() {
            return;
        }
        let (mut plans, mut diff, mut ratio) = (Vec::new(), Vec::new(), Vec::new());
        let mut length = 0;
        for round in 0..=ROUNDS {
            let (one, _) = clocked(|| library(first, &mut buffer));
            let (other, _) = clocked(|| library(second, &mut buffer));
            let (both, answer) = clocked(|| diff_listing(first, second, &mut buffer));
            length = match Listed::decode(answer) {
                Ok(Listed::Written(length)) => length,
                refused => panic!("{refused:?}"),
            };
            if round > 0 {
                plans.push(one + other);
                diff.push(both);
                ratio.push(both / (one + other));
            }
        }
        let tasks = [first, second].map(tasks);
        let header = format!("diff\t{}\t{}\n", tasks[0], tasks[1]);
        assert!(buffer[..length].starts_with(header.as_bytes()));
        let lines = buffer[..length].iter().filter(|&&byte| byte == b'\n');
        self.names.push((128 * (tasks[0] + tasks[1])) as f64);
        self.lines.push(lines.count() as f64);
        self.plans.push(median(&plans));
        self.diff.push(median(&diff));
        self.ratio.push(median(&ratio));
    }

    /// A row of the table.
    fn row(&self, name: &str) -> String {
        let middle = |numbers: &[f64], unit: f64| grouped((median(numbers) / unit).round() as u64);
        format!(
            "| {name} | {} | {} | {} | {} | {} | {} |\n",
            self.ratio.len(),
            middle(&self.names, 1.0),
            middle(&self.lines, 1.0),
            middle(&self.plans, 1_000.0),
            middle(&self.diff, 1_000.0),
            self.ratios()
        )
    }

    /// The median and the greatest ratio.
    fn ratios(&self) -> String {
        let greatest = self.ratio.iter().copied().fold(0.0, f64::max);
        format!("{:.2} / {greatest:.2}", median(&self.ratio))
    }
}

/// How many tasks a sheet has.
fn tasks(sheet: &[u8]) -> usize {
    sheets::read(sheet)
        .expect("a sheet that is read")
        .tasks
        .len()
}

/// A sheet without the task in the middle of its list. Its tasks are its last lines.
fn one_less(sheet: &[u8]) -> Vec<u8> {
    let mut lines: Vec<&[u8]> = sheet.split_inclusive(|&byte| byte == b'\n').collect();
    lines.remove(lines.len() - 1 - tasks(sheet) / 2);
    lines.concat()
}

/// A sheet whose tasks have other names.
fn renamed(sheet: &[u8]) -> Vec<u8> {
    let text = String::from_utf8_lossy(sheet);
    text.replace("\nfit\t", "\nfit\tother-").into_bytes()
}

/// The table of all workloads of more than one sheet, in Markdown.
pub fn table(loads: &[Load]) -> String {
    let mut text = String::from(
        "| workload | pairs | comparisons of names | lines | two plans, µs | side by side, µs | ratio, median / greatest |\n|---|---|---|---|---|---|---|\n",
    );
    let mut all = Took::default();
    for load in loads.iter().filter(|load| load.sheets.len() > 1) {
        eprintln!("{} ({} sheets)", load.name, load.sheets.len());
        let (mut less, mut other) = (Took::default(), Took::default());
        for sheet in &load.sheets {
            less.pair(sheet, &one_less(sheet));
            if tasks(sheet) == 64 {
                other.pair(sheet, &renamed(sheet));
            }
        }
        text += &less.row(&load.name);
        if !other.ratio.is_empty() {
            text += &other.row(&format!("{}, other names", load.name));
        }
        all.ratio.extend(less.ratio.iter().chain(&other.ratio));
    }
    let _ = writeln!(text, "\nratio of all pairs: {}", all.ratios());
    text
}
