//! What is planned and judged: both papers' workloads, sixteen cores with sixty-four tasks, the
//! special sheets, and cores made to be slow. Random numbers come from a fixed seed.

use std::fmt::Write as _;

use inputs::random::SEED;
use inputs::{bytes, cases, Random};

/// Where a workload comes from.
#[derive(Clone, Copy, Debug, Default, PartialEq, Eq)]
pub enum Source {
    /// A paper.
    #[default]
    Paper,
    /// Asked for beside the papers'.
    Asked,
    /// Made to be slow.
    Made,
}

/// A workload: its name and its sheets.
pub struct Load {
    /// What it is called in the tables.
    pub name: String,
    /// Where it comes from.
    pub source: Source,
    /// The sheets.
    pub sheets: Vec<Vec<u8>>,
}

/// How the sheets of a workload are drawn.
struct Draw {
    cores: u64,
    tasks: usize,
    utilisations: Vec<f64>,
    periods: Periods,
    deadlines: Deadlines,
    costs: bool,
}

#[derive(Clone, Copy)]
enum Periods {
    /// 5 to 50 ms in µs, each as likely.
    Uniform,
    /// A factor of 100 from that on, by the logarithm.
    Logarithmic(u64),
}

#[derive(Clone, Copy, PartialEq)]
enum Deadlines {
    /// D = T.
    Implicit,
    /// From C to T, each as likely.
    Constrained,
}

/// Table II of 000 in µs and in the sheet's order.
const TABLE_2: &str = "10\t20\t5\t10\t10\t10\t15\t10\t1";

impl Draw {
    /// A sheet with that total utilisation.
    fn sheet(&self, total: f64, random: &mut Random) -> Vec<u8> {
        let (costs, charges) = if self.costs {
            (TABLE_2, "100\t100")
        } else {
            ("0\t0\t0\t0\t0\t0\t0\t0\t0", "0\t0")
        };
        let mut parts = String::new();
        let mut fits = String::new();
        for (place, used) in uunifast(self.tasks, total, random).iter().enumerate() {
            let period = match self.periods {
                Periods::Uniform => random.between(5_000, 50_000),
                Periods::Logarithmic(least) => {
                    (least as f64 * 100_f64.powf(random.unit())).round() as u64
                }
            };
            let budget = ((used * period as f64).round() as u64).clamp(1, period);
            let deadline = match self.deadlines {
                Deadlines::Implicit => period,
                Deadlines::Constrained => random.between(budget, period),
            };
            let _ = writeln!(
                parts,
                "part\tp{place}\t{budget}\t{deadline}\t{period}\t0\t{charges}"
            );
            let _ = writeln!(fits, "fit\tt{place}\tp{place}");
        }
        let head = format!("machine\t{}\t1\ncost\t{costs}\n", self.cores);
        (head + &parts + &fits).into_bytes()
    }

    /// A workload of that many sheets for each utilisation.
    fn load(&self, name: &str, source: Source, each: usize, random: &mut Random) -> Load {
        let mut sheets = Vec::new();
        for &total in &self.utilisations {
            for _ in 0..each {
                sheets.push(self.sheet(total, random));
            }
        }
        Load {
            name: name.to_owned(),
            source,
            sheets,
        }
    }
}

/// UUniFast-discard: utilisations of that sum, each at most 1.
fn uunifast(tasks: usize, total: f64, random: &mut Random) -> Vec<f64> {
    loop {
        let mut left = total;
        let mut used = Vec::with_capacity(tasks);
        for behind in (1..tasks).rev() {
            let next = left * random.unit().powf(1.0 / behind as f64);
            used.push(left - next);
            left = next;
        }
        used.push(left);
        if used.iter().all(|&used| used <= 1.0) {
            return used;
        }
    }
}

/// That many cores used from `least` to `most` thousandths, in steps of 25.
fn utilisations(cores: u32, least: usize, most: usize) -> Vec<f64> {
    (least..=most)
        .step_by(25)
        .map(|share| f64::from(cores) * share as f64 / 1_000.0)
        .collect()
}

/// All workloads; `each` is about how many sheets one has for each twelfth of it.
pub fn loads(each: usize) -> Vec<Load> {
    let random = &mut Random::new(SEED);
    let mut loads = Vec::new();
    for costs in [true, false] {
        for tasks in [12, 16, 24] {
            let draw = Draw {
                cores: 8,
                tasks,
                utilisations: utilisations(8, 700, 975),
                periods: Periods::Uniform,
                deadlines: Deadlines::Implicit,
                costs,
            };
            let with = if costs { "costs" } else { "no costs" };
            loads.push(draw.load(
                &format!("000 n={tasks}, {with}"),
                Source::Paper,
                each,
                random,
            ));
        }
    }
    for deadlines in [Deadlines::Implicit, Deadlines::Constrained] {
        for tasks in [6, 8, 12, 20, 36] {
            let draw = Draw {
                cores: 16,
                tasks,
                utilisations: vec![4.0],
                periods: Periods::Logarithmic(1_000),
                deadlines,
                costs: false,
            };
            let with = if deadlines == Deadlines::Implicit {
                "D=T"
            } else {
                "D≤T"
            };
            loads.push(draw.load(
                &format!("001 n={tasks}, {with}"),
                Source::Paper,
                12 * each,
                random,
            ));
        }
    }
    let third = Draw {
        cores: 4,
        tasks: 12,
        utilisations: utilisations(4, 25, 975),
        periods: Periods::Logarithmic(1_000),
        deadlines: Deadlines::Constrained,
        costs: false,
    };
    loads.push(third.load("001 m=4, n=12, D≤T", Source::Paper, (each + 2) / 3, random));
    for (name, periods, costs) in [
        ("16 × 64, costs", Periods::Uniform, true),
        ("16 × 64, no costs", Periods::Uniform, false),
        ("16 × 64, long, costs", Periods::Logarithmic(10_000), true),
        (
            "16 × 64, long, no costs",
            Periods::Logarithmic(10_000),
            false,
        ),
    ] {
        let draw = Draw {
            cores: 16,
            tasks: 64,
            utilisations: utilisations(16, 700, 975),
            periods,
            deadlines: Deadlines::Implicit,
            costs,
        };
        loads.push(draw.load(name, Source::Asked, each, random));
    }
    loads.extend(special());
    loads.extend(MADE.iter().map(|(name, sheet)| Load {
        name: (*name).to_owned(),
        source: Source::Made,
        sheets: vec![sheet.as_bytes().to_vec()],
    }));
    loads
}

/// The sheets of `tests/data/special`, each a workload of one.
fn special() -> Vec<Load> {
    let load = |name: &String| Load {
        name: format!("special, {name}"),
        source: Source::Asked,
        sheets: vec![bytes("special", &format!("{name}.sheet"))],
    };
    cases("special", ".sheet").iter().map(load).collect()
}

/// A core made to be slow.
pub struct Slow {
    /// Its budgets in periods.
    pub name: String,
    /// Its records.
    pub records: Vec<u8>,
}

/// Sheets with as many candidates for a split as a search by machine and by hand found. A cost
/// that is no charge, `IpB`, is above the charge of the one piece on the core.
const MADE: [(&str, &str); 3] = [
    (
        "made, own blocking",
        "machine\t2\t1
cost\t0\t0\t0\t2\t0\t0\t0\t0\t0
part\tp0\t1\t1\t1000000\t0\t0\t0
part\tp1\t999990\t1000000\t1000000\t0\t0\t0
fit\tt0\tp0
fit\tt1\tp1
",
    ),
    (
        "made, short steps",
        "machine\t2\t1
cost\t0\t0\t0\t1\t6067\t2353\t3\t1911\t0
part\tp0\t991398\t1000000\t1000000\t0\t76\t0
part\tp1\t1\t1\t35801\t0\t0\t0
fit\tt0\tp0
fit\tt1\tp1
",
    ),
    (
        "made, last falls",
        "machine\t2\t1
cost\t1\t0\t0\t29004\t0\t0\t1\t758\t0
part\tp0\t333\t367\t31460\t0\t0\t0
part\tp1\t123730\t181194\t956025\t0\t0\t0
fit\tt0\tp0
fit\tt1\tp1
",
    ),
];

/// Cores made to be slow, by budgets in periods, D = T, no costs: those of the study; the slowest
/// that searches found; and small periods that share no factor, whose loads leave almost nothing.
const SLOW: [&str; 7] = [
    "1/1, 1/1000000",
    "1/2, 1/3, 1/7, 1/43, 1/1810, 1/817214",
    "1/2, 1/3, 1/7, 1/43, 1/1830, 1/165615, 1/817215",
    "1/2, 1/3, 1/240, 1/11, 1/668, 1/352, 1/17, 1/247, 1/230, 1/30254",
    "1/4552, 1/12, 3/85, 3/20, 14/275, 16/523, 1/365, 2/13, 1/116, 3/75, 36/81",
    "1/12, 1/96, 1/163, 1/35, 6/159, 1/10, 7/222, 1/62, 1/11, 25/42",
    "5/37, 1/32, 5/27, 1/25, 4/35, 4/31, 1/29, 5/23, 1/19, 2/33",
];

/// The cores made to be slow.
pub fn slow() -> Vec<Slow> {
    SLOW.iter().filter_map(|list| core_of(list)).collect()
}

/// The core of such pieces as `1/2, 3/7`, a budget in a period.
pub fn core_of(list: &str) -> Option<Slow> {
    let mut records = Vec::new();
    for piece in list.split(", ") {
        let (budget, period) = piece.split_once('/')?;
        let (budget, period) = (budget.parse().ok()?, period.parse().ok()?);
        let fields: [u32; 7] = [0, budget, period, period, 0, 0, 0];
        records.extend(fields.iter().flat_map(|field| field.to_le_bytes()));
    }
    Some(Slow {
        name: list.to_owned(),
        records,
    })
}
