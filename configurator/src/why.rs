//! A why listing's lines, parsed back into figures, for tables, sentences, drawings and JSON: what a
//! core is asked for within the length that its verdict names (document 02, E1). `docs/LISTINGS.md` has
//! the form. The figures are those that the proved library wrote; that they add up is looked at once
//! more.

pub mod words;

use crate::listing::Kind;
use std::str;

/// A why listing.
#[derive(Clone, Debug, PartialEq, Eq)]
pub struct Why<'a> {
    /// The task that no core had room for. The listing is then about the last core, with the whole of
    /// that task added.
    pub stuck: Option<Stuck<'a>>,
    /// The verdict on the core.
    pub verdict: Verdict,
    /// The length that it names: of a pass the one with the least slack, overloaded the verdict's own,
    /// undecided the limit, and 0 of an empty core.
    pub length: u64,
    /// The blocking at that length.
    pub blocking: u64,
    /// What each piece asks for, in the order of the core's row.
    pub shares: Vec<Share<'a>>,
    /// The sum of it all; an empty core has none.
    pub sum: Option<Sum>,
}

/// Where a sheet's walk stuck.
#[derive(Clone, Copy, Debug, PartialEq, Eq)]
pub struct Stuck<'a> {
    /// The task's place in the list of tasks, from 1.
    pub place: u32,
    /// Its name.
    pub task: &'a str,
    /// The last core, which the walk stood at.
    pub core: usize,
}

/// The verdicts.
#[derive(Clone, Copy, Debug, PartialEq, Eq)]
pub enum Verdict {
    /// The core passes.
    Passes,
    /// It is overloaded.
    Overloaded,
    /// It has no busy length up to the limit.
    Undecided,
}

/// What one piece asks for.
#[derive(Clone, Copy, Debug, PartialEq, Eq)]
pub struct Share<'a> {
    /// The task's name, or the place of a lent record, from 1.
    pub name: &'a str,
    /// Its kind.
    pub kind: Kind,
    /// The jobs due.
    pub jobs: u64,
    /// What these ask for.
    pub demand: u64,
    /// What the piece's interrupts ask for.
    pub interrupts: u64,
}

/// Blocking and all shares together.
#[derive(Clone, Copy, Debug, PartialEq, Eq)]
pub struct Sum {
    /// What is asked for.
    pub total: u64,
    /// The length minus the total.
    pub slack: i64,
}

impl Verdict {
    /// The listing's word for it.
    #[must_use]
    pub const fn word(self) -> &'static str {
        match self {
            Verdict::Passes => "passes",
            Verdict::Overloaded => "overloaded",
            Verdict::Undecided => "undecided",
        }
    }

    fn of(word: &str) -> Option<Self> {
        [Verdict::Passes, Verdict::Overloaded, Verdict::Undecided]
            .into_iter()
            .find(|verdict| verdict.word() == word)
    }
}

impl<'a> Why<'a> {
    /// The figures of a why listing's bytes; nothing if the bytes are none, or do not add up, which
    /// those of the library always do.
    ///
    /// ```
    /// use configurator::why::{Verdict, Why};
    ///
    /// let k7 = b"why\toverloaded\t11\t4
    /// piece\t1\twhole\t1\t8\t0
    /// piece\t2\twhole\t0\t0\t0
    /// total\t12
    /// slack\t-1
    /// ";
    /// let why = Why::parse(k7).unwrap();
    /// assert_eq!((why.verdict, why.length, why.blocking), (Verdict::Overloaded, 11, 4));
    /// assert_eq!((why.shares[0].jobs, why.shares[0].demand), (1, 8));
    /// assert_eq!(why.sum.unwrap().slack, -1);
    /// assert_eq!(Why::parse(b"why\tpasses\t0\t0\n").unwrap().sum, None);
    /// assert_eq!(Why::parse(&k7[..k7.len() - 1]), None);
    /// ```
    #[must_use]
    pub fn parse(bytes: &'a [u8]) -> Option<Self> {
        let text = str::from_utf8(bytes).ok()?.strip_suffix('\n')?;
        let lines: Vec<Vec<&str>> = (text.split('\n'))
            .map(|line| line.split('\t').collect())
            .collect();
        let stuck = Stuck::parse(&lines[0]);
        let (header, below) = lines[usize::from(stuck.is_some())..].split_first()?;
        let (verdict, length, blocking) = match header[..] {
            ["why", verdict, length, blocking] => (verdict, length, blocking),
            _ => return None,
        };
        let (below, sum) = match below {
            [pieces @ .., total, slack] => (pieces, Some(Sum::parse(total, slack)?)),
            none => (none, None),
        };
        let why = Why {
            stuck,
            verdict: Verdict::of(verdict)?,
            length: length.parse().ok()?,
            blocking: blocking.parse().ok()?,
            shares: below
                .iter()
                .map(|line| Share::parse(line))
                .collect::<Option<_>>()?,
            sum,
        };
        why.adds_up()?.then_some(why)
    }

    /// Whether the sum is that of blocking and shares, and the slack what it leaves of the length.
    /// Nothing where a number is too great for that.
    fn adds_up(&self) -> Option<bool> {
        let mut total = self.blocking;
        for share in &self.shares {
            total = (total.checked_add(share.demand)?).checked_add(share.interrupts)?;
        }
        let left = i64::try_from(self.length).ok()? - i64::try_from(total).ok()?;
        Some(match self.sum {
            Some(sum) => !self.shares.is_empty() && (sum.total, sum.slack) == (total, left),
            None => self.shares.is_empty() && (self.length, total) == (0, 0),
        })
    }

    /// The pieces that ask for something, those that ask most first, and else in their order.
    #[must_use]
    pub fn greatest(&self) -> Vec<&Share<'a>> {
        let asks = |share: &Share| share.demand + share.interrupts;
        let mut shares: Vec<&Share> = self.shares.iter().filter(|s| asks(s) > 0).collect();
        shares.sort_by_key(|share| std::cmp::Reverse(asks(share)));
        shares
    }
}

impl<'a> Stuck<'a> {
    fn parse(line: &[&'a str]) -> Option<Self> {
        match *line {
            ["noroom", place, task, core] => Some(Stuck {
                place: place.parse().ok()?,
                task,
                core: core.parse().ok()?,
            }),
            _ => None,
        }
    }
}

impl Sum {
    fn parse(total: &[&str], slack: &[&str]) -> Option<Self> {
        match (total, slack) {
            (["total", total], ["slack", slack]) => Some(Sum {
                total: total.parse().ok()?,
                slack: slack.parse().ok()?,
            }),
            _ => None,
        }
    }
}

impl<'a> Share<'a> {
    fn parse(line: &[&'a str]) -> Option<Self> {
        match *line {
            ["piece", name, kind, jobs, demand, interrupts] => Some(Share {
                name,
                kind: Kind::of(kind)?,
                jobs: jobs.parse().ok()?,
                demand: demand.parse().ok()?,
                interrupts: interrupts.parse().ok()?,
            }),
            _ => None,
        }
    }
}

#[cfg(test)]
mod tests {
    use super::*;

    const STUCK: &str = "noroom\t3\tt2\t4
why\toverloaded\t10\t4
piece\tt0\tlast\t1\t2\t1
piece\tt1\twhole\t0\t0\t0
piece\tt2\twhole\t2\t3\t2
total\t12
slack\t-2
";

    #[test]
    fn a_listing_with_no_room() {
        let why = Why::parse(STUCK.as_bytes()).unwrap();
        let stuck = why.stuck.unwrap();
        assert_eq!((stuck.place, stuck.task, stuck.core), (3, "t2", 4));
        let names: Vec<&str> = why.greatest().iter().map(|share| share.name).collect();
        assert_eq!(names, ["t2", "t0"]);
    }

    /// What has another form is no why listing, and neither is what does not add up.
    #[test]
    fn what_is_no_why_listing() {
        for (from, to) in [
            ("noroom\t3\tt2\t4\n", "noroom\t3\tt2\n"),
            ("noroom", "no-room"),
            ("why\t", "because\t"),
            ("overloaded", "overload"),
            ("\t10\t4\n", "\t10\n"),
            ("last", "middle"),
            ("total\t12\nslack\t-2\n", ""),
            ("total\t12", "total\t13"),
            ("slack\t-2", "slack\t2"),
            ("slack\t-2\n", "slack\t-2"),
            ("slack\t-2\n", "slack\t-2\n\n"),
            ("\t3\t2\n", "\t18446744073709551615\t2\n"),
        ] {
            let changed = STUCK.replacen(from, to, 1);
            assert_ne!(changed, STUCK);
            assert_eq!(Why::parse(changed.as_bytes()), None, "{changed}");
        }
        for bytes in [
            &b""[..],
            b"\n",
            b"why\tpasses\t0\t1\n",
            b"why\tpasses\t0\t0\ntotal\t0\nslack\t0\n",
            b"why\tpasses\t\xff\t0\n",
            b"noroom\t1\tt\t1\n",
        ] {
            assert_eq!(Why::parse(bytes), None);
        }
    }
}
