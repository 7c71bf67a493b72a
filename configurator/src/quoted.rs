//! What a sheet's own lines say, quoted for tables: numbers stay the text that stands in the sheet.
//! The proved library reads sheets; this looks words up in one that it has accepted.

use std::fmt::Write;
use std::str;

/// The names of the nine cost constants, in the sheet's order.
pub const COSTS: [&str; 9] = [
    "RelO", "SchedO", "TsetO", "IpB", "BetO", "MigrO", "IpiO", "IpiJ", "π",
];

/// The names of a part's times, in the sheet's order.
pub const TIMES: [&str; 6] = ["C", "D", "T", "J", "P", "M"];

/// An accepted sheet's words.
#[derive(Clone, Debug, PartialEq, Eq)]
pub struct Sheet<'a> {
    /// The cores of the machine.
    pub cores: usize,
    /// The grain.
    pub grain: &'a str,
    /// The cost constants.
    pub costs: [&'a str; 9],
    /// The parts.
    pub parts: Vec<Part<'a>>,
    /// The tasks.
    pub fits: Vec<Fit<'a>>,
}

/// A `part` line.
#[derive(Clone, Copy, Debug, PartialEq, Eq)]
pub struct Part<'a> {
    /// Its name.
    pub name: &'a str,
    /// Its six times.
    pub times: [&'a str; 6],
}

/// A `fit` line.
#[derive(Clone, Copy, Debug, PartialEq, Eq)]
pub struct Fit<'a> {
    /// The task's name.
    pub task: &'a str,
    /// The part's name.
    pub part: &'a str,
}

impl<'a> Sheet<'a> {
    /// The words of an accepted sheet; nothing where a line has another form.
    ///
    /// ```
    /// use configurator::quoted::Sheet;
    ///
    /// let sheet = b"machine\t2\t1\ncost\t0\t0\t0\t0\t0\t0\t0\t0\t0
    /// part\tdrv-a\t6\t10\t10\t0\t0\t1
    /// fit\tpress\tdrv-a
    /// ";
    /// let words = Sheet::parse(sheet).unwrap();
    /// assert_eq!((words.cores, words.grain), (2, "1"));
    /// assert_eq!(words.part_of("press").unwrap().times, ["6", "10", "10", "0", "0", "1"]);
    /// assert_eq!(Sheet::parse(b""), None);
    /// ```
    #[must_use]
    pub fn parse(bytes: &'a [u8]) -> Option<Self> {
        let mut lines = str::from_utf8(bytes).ok()?.strip_suffix('\n')?.split('\n');
        let [cores, grain] = fields(lines.next()?, "machine")?;
        let mut sheet = Sheet {
            cores: cores.parse().ok()?,
            grain,
            costs: fields(lines.next()?, "cost")?,
            parts: Vec::new(),
            fits: Vec::new(),
        };
        for line in lines {
            if let Some([name, c, d, t, j, p, m]) = fields(line, "part") {
                let times = [c, d, t, j, p, m];
                sheet.parts.push(Part { name, times });
            } else {
                let [task, part] = fields(line, "fit")?;
                sheet.fits.push(Fit { task, part });
            }
        }
        Some(sheet)
    }

    /// The sheet's lines, from its words.
    ///
    /// ```
    /// use configurator::quoted::Sheet;
    ///
    /// let sheet = "machine\t2\t1\ncost\t0\t0\t0\t0\t0\t0\t0\t0\t0\npart\ta\t6\t10\t10\t0\t0\t1\nfit\tb\ta\n";
    /// assert_eq!(Sheet::parse(sheet.as_bytes()).unwrap().text(), sheet);
    /// ```
    #[must_use]
    pub fn text(&self) -> String {
        let mut text = self.head();
        for Part { name, times } in &self.parts {
            let _ = writeln!(text, "part\t{name}\t{}", times.join("\t"));
        }
        for Fit { task, part } in &self.fits {
            let _ = writeln!(text, "fit\t{task}\t{part}");
        }
        text
    }

    /// Its first two lines: the machine and the costs.
    #[must_use]
    pub fn head(&self) -> String {
        let (cores, grain, costs) = (self.cores, self.grain, self.costs.join("\t"));
        format!("machine\t{cores}\t{grain}\ncost\t{costs}\n")
    }

    /// The part that a task is fitted with.
    #[must_use]
    pub fn part_of(&self, task: &str) -> Option<&Part<'a>> {
        let fit = self.fits.iter().find(|fit| fit.task == task)?;
        self.parts.iter().find(|part| part.name == fit.part)
    }
}

/// The fields of a line behind its word, if it begins with it and has so many.
fn fields<'a, const N: usize>(line: &'a str, word: &str) -> Option<[&'a str; N]> {
    let rest = line.strip_prefix(word)?.strip_prefix('\t')?;
    rest.split('\t').collect::<Vec<_>>().try_into().ok()
}

/// A number of the form that sheets have: 1 to 7 digits, no leading zero but for 0 itself.
///
/// ```
/// use configurator::quoted::number;
///
/// assert_eq!(number("1000000"), Some(1_000_000));
/// assert_eq!((number("01"), number("+1"), number("")), (None, None, None));
/// ```
#[must_use]
pub fn number(text: &str) -> Option<u32> {
    let digits = text.len() <= 7 && text.bytes().all(|byte| byte.is_ascii_digit());
    let leading = text.len() > 1 && text.starts_with('0');
    (digits && !leading).then(|| text.parse().ok()).flatten()
}
