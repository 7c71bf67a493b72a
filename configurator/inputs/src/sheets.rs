//! Sheets and scripts, at random and damaged.

use std::fmt::Write as _;

use crate::cores::share_of;
use crate::random::Random;

/// Document 01's sheet.
pub const SHEET: &str = "machine\t2\t1
cost\t0\t0\t0\t0\t0\t0\t0\t0\t0
part\tdrv-a\t6\t10\t10\t0\t0\t1
fit\tpress\tdrv-a
fit\tfeed\tdrv-a
fit\tweld\tdrv-a
";

/// Its whole listing.
pub const LISTING: &str = "plan\t3\t4
piece\t1\tpress\twhole\t6\t10\t0\t6
piece\t1\tfeed\tfirst\t4\t4\t0\t4
piece\t2\tfeed\tlast\t2\t6\t0\t3
piece\t2\tweld\twhole\t6\t10\t0\t6
";

/// Names that differ in little: in case, in one byte, in length, in what part of a name may be.
pub(crate) const NAMES: [&str; 12] = [
    "a",
    "A",
    "aa",
    "a-",
    "a.",
    "-",
    "drv-a",
    "drv-a2",
    "drv-A",
    "abcdefghijklmnopqrstuvwx",
    "abcdefghijklmnopqrstuvwX",
    "0",
];

/// Lines of a script that are of another form, or whose numbers are outside the sizes.
const OTHER_LINES: [&str; 8] = [
    "\n",
    "list\t\n",
    "add\n",
    "add\tt1\t1\t2\t3\t0\t0\n",
    "add\tt1\t0\t0\t0\t0\t0\t0\n",
    "retime\tt1\t1\t2\t3\t00\t0\t0\n",
    "add\tt1\t3\t2\t3\t0\t0\t0\n",
    "add\tt1\t1\t1\t1\t0\t0\t10000000\n",
];

/// A sheet by its lines, whether it breaks a rule or not.
#[derive(Clone, Debug, PartialEq, Eq)]
pub struct Sheet {
    /// The cores.
    pub cores: u64,
    /// The grain.
    pub grain: u64,
    /// The nine costs.
    pub costs: [u64; 9],
    /// Each part's name, and its C, D, T, J, P, M.
    pub parts: Vec<(String, [u64; 6])>,
    /// Each task's name, and its part's.
    pub fits: Vec<(String, String)>,
}

impl Sheet {
    /// The sheet's bytes.
    ///
    /// ```
    /// use inputs::sheets::{Sheet, SHEET};
    ///
    /// let fit = |task: &str| (task.to_owned(), "drv-a".to_owned());
    /// let sheet = Sheet {
    ///     cores: 2,
    ///     grain: 1,
    ///     costs: [0; 9],
    ///     parts: vec![("drv-a".to_owned(), [6, 10, 10, 0, 0, 1])],
    ///     fits: ["press", "feed", "weld"].map(fit).to_vec(),
    /// };
    /// assert_eq!(sheet.bytes(), SHEET.as_bytes());
    /// ```
    #[must_use]
    pub fn bytes(&self) -> Vec<u8> {
        let mut text = format!("machine\t{}\t{}\n", self.cores, self.grain);
        let _ = writeln!(text, "cost\t{}", tabbed(&self.costs));
        for (name, times) in &self.parts {
            let _ = writeln!(text, "part\t{name}\t{}", tabbed(times));
        }
        for (task, part) in &self.fits {
            let _ = writeln!(text, "fit\t{task}\t{part}");
        }
        text.into_bytes()
    }
}

/// Numbers parted by tabs.
fn tabbed(numbers: &[u64]) -> String {
    let numbers: Vec<String> = numbers.iter().map(u64::to_string).collect();
    numbers.join("\t")
}

/// How random sheets are drawn.
#[derive(Clone, Copy)]
pub struct SheetDraw {
    /// The most cores.
    pub cores: u64,
    /// The longest period.
    pub period: u64,
    /// The most that a cost or a cache charge is; about half of them are 0 anyway.
    pub cost: u64,
    /// The most that a jitter is; about two in three are 0 anyway.
    pub jitter: u64,
}

/// Draws of small sheets, for which the oracle can look at every length.
pub const SMALL: [SheetDraw; 5] = [
    SheetDraw::new(4, 12, 0, 0),
    SheetDraw::new(5, 30, 0, 6),
    SheetDraw::new(4, 120, 2, 0),
    SheetDraw::new(3, 200, 4, 30),
    SheetDraw::new(16, 20, 1, 1),
];

/// Draws of sheets with times as a controller has them, each with a grain that leaves the oracle few
/// splits to try.
pub const LONG: [(SheetDraw, u64); 3] = [
    (SheetDraw::new(8, 4_000, 20, 50), 10),
    (SheetDraw::new(6, 50_000, 100, 500), 250),
    (SheetDraw::new(16, 1_000_000, 500, 20_000), 5_000),
];

impl SheetDraw {
    /// A draw by its numbers: cores, period, cost, jitter.
    #[must_use]
    pub const fn new(cores: u64, period: u64, cost: u64, jitter: u64) -> Self {
        SheetDraw {
            cores,
            period,
            cost,
            jitter,
        }
    }

    /// A sheet that breaks no rule, but may be refused with 7. Its load is from light to more than
    /// the cores can take.
    pub fn sheet(&self, random: &mut Random) -> Vec<u8> {
        self.by_lines(random).bytes()
    }

    /// The same with that grain.
    pub fn with_grain(&self, grain: u64, random: &mut Random) -> Vec<u8> {
        let sheet = Sheet {
            grain,
            ..self.by_lines(random)
        };
        sheet.bytes()
    }

    fn by_lines(&self, random: &mut Random) -> Sheet {
        let cores = random.between(1, self.cores);
        let grain = random.pick(&[1, 1, 1, 1, 2, 5]);
        let costs = [0; 9].map(|_: u64| self.charge(random));
        let tasks = random.between(0, 3 * cores);
        let parts = random.between(1, tasks + 1);
        let share = cores * random.between(40, 110) / (tasks + 1);
        let part = |number, random: &mut Random| (format!("p{number}"), self.times(share, random));
        let fit = |number, random: &mut Random| {
            let part = random.between(0, parts - 1);
            (format!("t{number}"), format!("p{part}"))
        };
        Sheet {
            cores,
            grain,
            costs,
            parts: (0..parts).map(|number| part(number, random)).collect(),
            fits: (0..tasks).map(|number| fit(number, random)).collect(),
        }
    }

    /// The six numbers of a part, within the sizes. The budget is about that share of the period, in
    /// hundredths.
    fn times(&self, share: u64, random: &mut Random) -> [u64; 6] {
        let period = random.between(1, self.period);
        let budget = period * random.between(1, 2 * share + 1) / 100;
        let budget = budget.clamp(1, period);
        let deadline = if random.once_in(3) {
            random.between(budget, period)
        } else {
            period
        };
        let jitter = if random.once_in(3) {
            random.between(0, self.jitter)
        } else {
            0
        };
        let (preemption, migration) = (self.charge(random), self.charge(random));
        [budget, deadline, period, jitter, preemption, migration]
    }

    /// A script of that many lines: edits with names that are held or not, formed or not, lists,
    /// and now and then a line of another form.
    pub fn script(&self, lines: u64, random: &mut Random) -> Vec<u8> {
        let mut text = Vec::new();
        for _ in 0..lines {
            let name = match random.between(1, 8) {
                1 => random.pick(&NAMES).to_owned(),
                2 => random
                    .pick(&["", "a b", "abcdefghijklmnopqrstuvwxy"])
                    .to_owned(),
                _ => format!("t{}", random.between(0, 3 * self.cores)),
            };
            let share = random.between(5, 60);
            let times = tabbed(&self.times(share, random));
            let line = match random.between(1, 12) {
                1..=4 => format!("add\t{name}\t{times}\n"),
                5..=7 => format!("withdraw\t{name}\n"),
                8..=10 => format!("retime\t{name}\t{times}\n"),
                11 => "list\n".to_owned(),
                _ => random.pick(&OTHER_LINES).to_owned(),
            };
            text.extend(line.bytes());
        }
        text.extend(b"list\n");
        text
    }

    fn charge(&self, random: &mut Random) -> u64 {
        if random.once_in(2) {
            0
        } else {
            random.between(0, self.cost)
        }
    }
}

/// A sheet whose tasks almost fill the cores. Most are planned with splits or stick at a late task. A
/// cost is at most that; where there are costs, times are twenty times as long and more room is left.
pub fn full_load(cost: u64, random: &mut Random) -> Vec<u8> {
    let (unit, spare) = if cost == 0 { (1, 10) } else { (20, 25) };
    let cores = random.between(2, 8);
    let mut sheet = Sheet {
        cores,
        grain: 1,
        costs: [0; 9].map(|_: u64| random.between(0, cost)),
        parts: Vec::new(),
        fits: Vec::new(),
    };
    let mut left = 60 * cores - random.between(0, spare * cores); // sixtieths of a core
    while left > 0 && sheet.fits.len() < 64 {
        let (budget, period) = share_of(&mut left, random);
        let (budget, period) = (unit * budget, unit * period);
        let (preemption, migration) = (random.between(0, cost), random.pick(&[0, 0, 1]));
        let part = format!("p{}", sheet.parts.len());
        let times = [budget, period, period, 0, preemption, migration];
        sheet.parts.push((part.clone(), times));
        sheet.fits.push((format!("t{}", sheet.fits.len()), part));
    }
    sheet.bytes()
}

/// One damage to a sheet's bytes. Places and lines count round from the beginning, so that every
/// number is one.
#[derive(Clone, Copy, Debug, PartialEq, Eq)]
pub enum Damage {
    /// The byte at a place becomes another.
    Change(u64, u8),
    /// The byte at a place goes.
    Drop(u64),
    /// The byte at a place comes twice.
    Double(u64),
    /// All from a place on goes.
    Cut(u64),
    /// Two lines change places.
    SwapLines(u64, u64),
    /// A line goes.
    DropLine(u64),
    /// A line comes once more, before another.
    DoubleLine(u64, u64),
    /// Of a line, a field becomes another.
    Field(u64, u64, &'static str),
}

/// Fields that a damage puts in: at the sizes and about, of no form, and names.
pub(crate) const FIELDS: [&str; 13] = [
    "0", "00", "1", "17", "100000", "100001", "1000000", "1000001", "9999999", "10000000", "",
    "p0", "t0",
];

impl Damage {
    /// A sheet with this damage. One without bytes stays as it is.
    ///
    /// ```
    /// use inputs::sheets::Damage;
    ///
    /// assert_eq!(Damage::Field(1, 0, "17").of(b"a\tb\nc\td\n"), b"a\tb\n17\td\n");
    /// assert_eq!(Damage::Cut(5).of(b"abc"), b"ab");
    /// ```
    #[must_use]
    #[allow(clippy::cast_possible_truncation)] // a place is below a length
    pub fn of(self, sheet: &[u8]) -> Vec<u8> {
        let mut bytes = sheet.to_vec();
        let mut lines: Vec<&[u8]> = sheet.split_inclusive(|&byte| byte == b'\n').collect();
        if bytes.is_empty() {
            return bytes;
        }
        let (length, count) = (bytes.len() as u64, lines.len() as u64);
        let (byte, line) = (|at| (at % length) as usize, |at| (at % count) as usize);
        match self {
            Damage::Change(at, other) => bytes[byte(at)] = other,
            Damage::Drop(at) => {
                bytes.remove(byte(at));
            }
            Damage::Double(at) => bytes.insert(byte(at), sheet[byte(at)]),
            Damage::Cut(at) => bytes.truncate(byte(at)),
            Damage::SwapLines(one, other) => {
                lines.swap(line(one), line(other));
                bytes = lines.concat();
            }
            Damage::DropLine(one) => {
                lines.remove(line(one));
                bytes = lines.concat();
            }
            Damage::DoubleLine(one, other) => {
                lines.insert(line(other), lines[line(one)]);
                bytes = lines.concat();
            }
            Damage::Field(one, at, field) => {
                let mut fields: Vec<&[u8]> = lines[line(one)].split(|&b| b == b'\t').collect();
                let place = (at % fields.len() as u64) as usize;
                fields[place] = field.as_bytes();
                let other = fields.join(&b'\t');
                lines[line(one)] = &other;
                bytes = lines.concat();
            }
        }
        bytes
    }
}

/// A sheet with a damage by chance.
pub fn damaged(sheet: &[u8], random: &mut Random) -> Vec<u8> {
    let (at, one, other) = (random.any(), random.any(), random.any());
    let damage = match random.between(1, 10) {
        1 => Damage::Change(at, random.byte()),
        2 => Damage::Change(at, random.pick(b"\t\n09azAZ-. _")),
        3 => Damage::Drop(at),
        4 => Damage::Double(at),
        5 => Damage::Cut(at),
        6 => Damage::SwapLines(one, other),
        7 => Damage::DropLine(one),
        8 => Damage::DoubleLine(one, other),
        _ => Damage::Field(one, random.any(), random.pick(&FIELDS)),
    };
    damage.of(sheet)
}
