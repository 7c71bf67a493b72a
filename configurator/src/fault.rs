//! Which words of a refused line the refusal is about.
//!
//! The refusal is the library's. What stands here looks at the refused line for something that
//! breaks the rule, so that it can be pointed at; where it finds nothing, the refusal stands as it
//! is.

use crate::forms::Text;
use crate::mend::Flaw;
use crate::misformed;
use crate::quoted::COSTS;
use crate::text::shown;
use std::ops::Range;
use std::str;

/// Part of a line, and what is wrong with it.
#[derive(Clone, Debug, PartialEq, Eq)]
pub struct Fault {
    /// The bytes of the line that it is about; empty where something is missing there.
    pub part: Range<usize>,
    /// What is wrong, or what stands elsewhere.
    pub why: String,
    /// What `fmt` mends, where nothing else is wrong.
    pub flaw: Option<Flaw>,
    /// What a person can do about it, if there is something better to say than the refusal's remedy.
    pub to_do: Option<&'static str>,
}

/// The number in the file of the line with so many lines above it.
pub type Numbers<'a> = &'a dyn Fn(usize) -> usize;

/// The most names that are given as a hint.
const NEAREST: usize = 3;

/// The fault in the line with so many lines above it, for a refusal of that number.
///
/// ```
/// use configurator::{fault, forms::Text};
///
/// let sheet = b"machine\t2\t1\ncost\t0\t0\t0\t0\t0\t0\t0\t0\t0\npart\tdrv-a\t6\t10\t10\t0\t0\t1
/// fit\tweld\tdrv-a2
/// ";
/// let fault = fault::find(5, Text::Sheet, sheet, 3, &|above| above + 1).unwrap();
/// assert_eq!(fault.part, 9..15);
/// assert_eq!(fault.why, "no part `drv-a2` above; `drv-a` is a different part");
/// ```
#[must_use]
pub fn find(number: u8, text: Text, bytes: &[u8], above: usize, numbers: Numbers) -> Option<Fault> {
    let lines = bytes.splitn(above.saturating_add(2), |&byte| byte == b'\n');
    let mut lines: Vec<&[u8]> = lines.collect();
    let line = *lines.get(above)?;
    let below = (lines.len() > above + 1).then(|| lines.pop()).flatten();
    let fields = fields(line);
    match number {
        1 => machine(&fields),
        2 => costs(&fields),
        3 => times(text.times(), fields.get(text.names_before_times() + 1..)?),
        4 => taken(&lines[..above], fields.first()?, fields.get(1)?, numbers),
        5 => Some(missing(&lines[..above], fields.get(2)?)),
        8 => misformed::find(text, bytes, &lines, below),
        _ => None,
    }
}

/// One field of a line: its bytes, and where they stand.
#[derive(Clone)]
pub(crate) struct Field<'a> {
    pub bytes: &'a [u8],
    pub at: Range<usize>,
}

impl Field<'_> {
    /// The field as text; bytes that are none are shown as such.
    pub fn text(&self) -> String {
        shown(self.bytes)
    }

    /// The number of a field that has the form of one.
    fn number(&self) -> Option<u32> {
        str::from_utf8(self.bytes).ok()?.parse().ok()
    }

    pub fn fault(&self, why: String) -> Fault {
        Fault::new(self.at.clone(), why)
    }
}

impl Fault {
    /// A fault that only a person can mend.
    pub(crate) fn new(part: Range<usize>, why: impl Into<String>) -> Self {
        let why = why.into();
        Fault {
            part,
            why,
            flaw: None,
            to_do: None,
        }
    }

    /// A fault that `fmt` mends.
    pub(crate) fn flawed(part: Range<usize>, why: String, flaw: Flaw) -> Self {
        let flaw = Some(flaw);
        Fault {
            flaw,
            ..Fault::new(part, why)
        }
    }

    /// The fault, with what a person can do about it.
    pub(crate) fn with(self, to_do: &'static str) -> Self {
        let to_do = Some(to_do);
        Fault { to_do, ..self }
    }
}

/// A line's fields.
fn fields(line: &[u8]) -> Vec<Field<'_>> {
    let mut from = 0;
    let field = |bytes: &'_ [u8]| {
        let at = from..from + bytes.len();
        from = at.end + 1;
        at
    };
    let places: Vec<Range<usize>> = line.split(|&byte| byte == b'\t').map(field).collect();
    places
        .into_iter()
        .map(|at| Field {
            bytes: &line[at.clone()],
            at,
        })
        .collect()
}

/// 1: the cores or the grain.
fn machine(fields: &[Field]) -> Option<Fault> {
    let (cores, grain) = (fields.get(1)?, fields.get(2)?);
    Some(if (1..=16).contains(&cores.number()?) {
        grain.fault(format!("the grain is {} here", grain.text()))
    } else {
        cores.fault(format!("the machine has {} cores here", cores.text()))
    })
}

/// 2: the first cost that is too great.
fn costs(fields: &[Field]) -> Option<Fault> {
    let fields = fields.get(1..)?;
    let numbers: Vec<u32> = fields.iter().filter_map(Field::number).collect();
    let (at, why) = broken_cost(&numbers)?;
    Some(fields.get(at)?.fault(why))
}

/// Which of nine costs is wrong, and how.
pub(crate) fn broken_cost(numbers: &[u32]) -> Option<(usize, String)> {
    let mut named = COSTS.iter().zip(numbers).enumerate();
    let (at, (name, cost)) = named.find(|(_, (_, &cost))| cost > 100_000)?;
    Some((at, format!("{name} is {cost} here")))
}

/// 3: the first time that is too great or too small beside the one after it.
fn times(names: [&str; 6], fields: &[Field]) -> Option<Fault> {
    let numbers: Vec<u32> = fields.iter().filter_map(Field::number).collect();
    let (at, why) = broken_times(names, &numbers)?;
    let part = fields.get(at.start)?.at.start..fields.get(at.end - 1)?.at.end;
    Some(Fault::new(part, why))
}

/// Which of six times are wrong, and how.
pub(crate) fn broken_times(names: [&str; 6], numbers: &[u32]) -> Option<(Range<usize>, String)> {
    let most = [1_000_000, 1_000_000, 1_000_000, 1_000_000, 100_000, 100_000];
    let too_great = (0..6).find(|&at| numbers.get(at) > most.get(at));
    match (too_great, numbers) {
        (Some(at), _) => Some((at..at + 1, format!("{} is {} here", names[at], numbers[at]))),
        (None, [0, ..]) => Some((0..1, format!("{} is 0 here", names[0]))),
        (None, [c, d, _, ..]) => {
            let at = usize::from(c <= d);
            let why = format!(
                "{} is {} here and {} is {}",
                names[at],
                numbers[at],
                names[at + 1],
                numbers[at + 1]
            );
            Some((at..at + 2, why))
        }
        _ => None,
    }
}

/// 4: where the name was taken.
fn taken(above: &[&[u8]], word: &Field, name: &Field, numbers: Numbers) -> Option<Fault> {
    let first = above.iter().position(|line| {
        let fields = fields(line);
        fields.len() > 1 && fields[0].bytes == word.bytes && fields[1].bytes == name.bytes
    })?;
    let thing = if word.bytes == b"part" {
        "part"
    } else {
        "task"
    };
    let (name_text, line) = (name.text(), numbers(first));
    Some(name.fault(format!("line {line} has a {thing} `{name_text}` already")))
}

/// 5: the name that no part above has, and the names nearest to it.
fn missing(above: &[&[u8]], name: &Field) -> Fault {
    let parts = above.iter().filter_map(|line| {
        let fields = fields(line);
        (fields.len() > 1 && fields[0].bytes == b"part").then(|| fields[1].text())
    });
    let wanted = name.text();
    let hint = nearest("part", &wanted, parts);
    name.fault(format!("no part `{wanted}` above{hint}"))
}

/// The names nearest to one that nothing has, as a hint: each is a different part or task. Empty where
/// none is near.
pub(crate) fn nearest(thing: &str, wanted: &str, names: impl Iterator<Item = String>) -> String {
    let mut near: Vec<(usize, String)> = names
        .map(|name| (distance(wanted, &name), name))
        .filter(|(far, name)| *far <= 1 + wanted.len().max(name.len()) / 4)
        .collect();
    near.sort_by_key(|(far, _)| *far);
    let names: Vec<String> = near
        .iter()
        .take(NEAREST)
        .map(|(_, name)| format!("`{name}`"))
        .collect();
    match names.len() {
        0 => String::new(),
        1 => format!("; {} is a different {thing}", names[0]),
        _ => format!("; {} are different {thing}s", names.join(", ")),
    }
}

/// How many letters have to be put in, taken out or changed to make one name the other; letters that
/// differ in case alone count as equal.
fn distance(one: &str, other: &str) -> usize {
    strsim::levenshtein(&one.to_ascii_lowercase(), &other.to_ascii_lowercase())
}

#[cfg(test)]
mod tests {
    use super::*;

    const HEAD: &str = "machine\t2\t1\ncost\t0\t0\t0\t0\t0\t0\t0\t0\t0\n";

    /// The words at fault in the last line of a sheet, and why.
    fn fault(number: u8, sheet: &str) -> Option<(String, String)> {
        let bytes = sheet.as_bytes();
        let above = sheet.trim_end_matches('\n').matches('\n').count();
        let found = find(number, Text::Sheet, bytes, above, &|above| above + 1)?;
        let line = bytes.split(|&byte| byte == b'\n').nth(above).unwrap();
        let part = String::from_utf8(line[found.part].to_vec()).unwrap();
        Some((part, found.why))
    }

    /// The same with the first two lines above.
    fn below_head(number: u8, lines: &str) -> (String, String) {
        fault(number, &format!("{HEAD}{lines}")).expect("a fault is found")
    }

    fn words(part: &str, why: &str) -> (String, String) {
        (part.to_owned(), why.to_owned())
    }

    #[test]
    fn sizes() {
        let found = fault(1, "machine\t17\t1\n").unwrap();
        assert_eq!(found, words("17", "the machine has 17 cores here"));
        let found = fault(1, "machine\t16\t0\n").unwrap();
        assert_eq!(found, words("0", "the grain is 0 here"));
        let sheet = "machine\t1\t1\ncost\t0\t0\t0\t100001\t0\t0\t0\t0\t0\n";
        let found = fault(2, sheet).unwrap();
        assert_eq!(found, words("100001", "IpB is 100001 here"));
        for (times, part, why) in [
            ("12\t10\t10\t0\t0\t0", "12\t10", "C is 12 here and D is 10"),
            ("1\t11\t10\t0\t0\t0", "11\t10", "D is 11 here and T is 10"),
            ("0\t1\t1\t0\t0\t0", "0", "C is 0 here"),
            ("1\t1\t1\t0\t0\t100001", "100001", "M is 100001 here"),
            ("1\t1\t1000001\t0\t0\t0", "1000001", "T is 1000001 here"),
        ] {
            let found = below_head(3, &format!("part\tp\t{times}\n"));
            assert_eq!(found, words(part, why));
        }
    }

    #[test]
    fn names() {
        let parts = "part\tdrv-a\t1\t1\t1\t0\t0\t0\npart\tDrv-a2\t1\t1\t1\t0\t0\t0\n";
        assert_eq!(
            below_head(5, &format!("{parts}fit\tweld\tdrv-a2\n")),
            words(
                "drv-a2",
                "no part `drv-a2` above; `Drv-a2`, `drv-a` are different parts"
            )
        );
        assert_eq!(
            below_head(5, &format!("{parts}fit\tweld\theater\n")),
            words("heater", "no part `heater` above")
        );
        assert_eq!(
            below_head(4, &format!("{parts}part\tdrv-a\t1\t1\t1\t0\t0\t0\n")),
            words("drv-a", "line 3 has a part `drv-a` already")
        );
        let fits = format!("{parts}fit\tdrv-a\tdrv-a\nfit\tdrv-a\tDrv-a2\n");
        assert_eq!(
            below_head(4, &fits),
            words("drv-a", "line 5 has a task `drv-a` already")
        );
    }

    /// No number, line or bytes are too odd.
    #[test]
    fn nothing_is_too_odd() {
        let long = vec![0xff; 40_000];
        for sheet in [
            &b""[..],
            b"\n",
            b"\t",
            b"part\t",
            b"\t\t\t\t\t\t\t\t",
            &long,
        ] {
            for number in 0..=11 {
                for above in [0, 1, 2, usize::MAX] {
                    let _ = find(number, Text::Sheet, sheet, above, &|above| above + 1);
                    let _ = find(number, Text::Table, sheet, above, &|above| above + 1);
                }
            }
        }
    }
}
