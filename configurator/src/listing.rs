//! A listing's lines, parsed back into rows, for tables, drawings and JSON. The figures are those
//! that the proved library wrote: nothing is computed here.

use std::str;

/// A listing: document 01, "Sheet".
#[derive(Clone, Debug, PartialEq, Eq)]
pub struct Listing<'a> {
    /// The header's number of tasks.
    pub tasks: usize,
    /// The pieces, by core and then by placement.
    pub pieces: Vec<Piece<'a>>,
}

/// One line of a listing.
#[derive(Clone, Copy, Debug, PartialEq, Eq)]
pub struct Piece<'a> {
    /// The core, from 1.
    pub core: usize,
    /// The task's name.
    pub task: &'a str,
    /// Whether it is the whole task or which part of it.
    pub kind: Kind,
    /// The time that the piece runs for at most.
    pub budget: u32,
    /// The time within which it is done.
    pub window: u32,
    /// Its jitter.
    pub jitter: u32,
    /// Its charged time.
    pub charged: u32,
}

/// The kinds of pieces.
#[derive(Clone, Copy, Debug, PartialEq, Eq)]
pub enum Kind {
    /// A whole task.
    Whole,
    /// The first piece of a split task.
    First,
    /// The last piece of a split task.
    Last,
}

impl Kind {
    /// The listing's word for it.
    #[must_use]
    pub const fn word(self) -> &'static str {
        match self {
            Kind::Whole => "whole",
            Kind::First => "first",
            Kind::Last => "last",
        }
    }

    /// The kind that a word of a listing stands for.
    pub(crate) fn of(word: &str) -> Option<Self> {
        [Kind::Whole, Kind::First, Kind::Last]
            .into_iter()
            .find(|kind| kind.word() == word)
    }

    /// The number of the kind in a lent record.
    #[must_use]
    pub const fn number(self) -> u32 {
        match self {
            Kind::Whole => 0,
            Kind::First => 1,
            Kind::Last => 2,
        }
    }
}

impl<'a> Listing<'a> {
    /// The rows of a listing's bytes; nothing if the bytes are no listing, which the library's
    /// always are.
    ///
    /// ```
    /// use configurator::listing::{Kind, Listing};
    ///
    /// let listing = Listing::parse(b"plan\t1\t1\npiece\t2\tweld\twhole\t6\t10\t0\t6\n").unwrap();
    /// assert_eq!((listing.tasks, listing.pieces.len()), (1, 1));
    /// assert_eq!((listing.pieces[0].task, listing.pieces[0].kind), ("weld", Kind::Whole));
    /// assert_eq!(Listing::parse(b"plan\t1\t2\n"), None);
    /// ```
    #[must_use]
    pub fn parse(bytes: &'a [u8]) -> Option<Self> {
        let mut lines = str::from_utf8(bytes).ok()?.strip_suffix('\n')?.split('\n');
        let header: Vec<&str> = lines.next()?.split('\t').collect();
        let (tasks, count): (usize, usize) = match header[..] {
            ["plan", tasks, pieces] => (tasks.parse().ok()?, pieces.parse().ok()?),
            _ => return None,
        };
        let pieces = lines.map(Piece::parse).collect::<Option<Vec<_>>>()?;
        (pieces.len() == count).then_some(Listing { tasks, pieces })
    }

    /// The pieces of one core, in placement order.
    pub fn on_core(&self, core: usize) -> impl Iterator<Item = &Piece<'a>> {
        self.pieces.iter().filter(move |piece| piece.core == core)
    }

    /// The split tasks: first and last piece.
    #[must_use]
    pub fn splits(&self) -> Vec<(&Piece<'a>, &Piece<'a>)> {
        let halves = |first: &'_ &Piece<'a>| first.kind == Kind::First;
        self.pieces
            .iter()
            .filter(halves)
            .filter_map(|first| Some((first, self.last_of(first.task)?)))
            .collect()
    }

    /// The last piece of a split task.
    #[must_use]
    pub fn last_of(&self, task: &str) -> Option<&Piece<'a>> {
        self.of_kind(task, Kind::Last)
    }

    /// The first piece of a split task.
    #[must_use]
    pub fn first_of(&self, task: &str) -> Option<&Piece<'a>> {
        self.of_kind(task, Kind::First)
    }

    fn of_kind(&self, task: &str, kind: Kind) -> Option<&Piece<'a>> {
        self.pieces
            .iter()
            .find(|piece| piece.task == task && piece.kind == kind)
    }
}

impl<'a> Piece<'a> {
    /// Its core and its figures, in the listing's order.
    #[must_use]
    pub fn figures(&self) -> [String; 5] {
        [
            self.core.to_string(),
            self.budget.to_string(),
            self.window.to_string(),
            self.jitter.to_string(),
            self.charged.to_string(),
        ]
    }

    /// Whether it is one of a split task's two.
    #[must_use]
    pub fn is_half(&self) -> bool {
        self.kind != Kind::Whole
    }

    fn parse(line: &'a str) -> Option<Self> {
        let fields: Vec<&str> = line.split('\t').collect();
        match fields[..] {
            ["piece", core, task, kind, budget, window, jitter, charged] => Some(Piece {
                core: core.parse().ok()?,
                task,
                kind: Kind::of(kind)?,
                budget: budget.parse().ok()?,
                window: window.parse().ok()?,
                jitter: jitter.parse().ok()?,
                charged: charged.parse().ok()?,
            }),
            _ => None,
        }
    }
}

#[cfg(test)]
mod tests {
    use super::*;

    #[test]
    fn what_is_no_listing() {
        for bytes in [
            &b""[..],
            b"\n",
            b"plan\t0\t0",
            b"plan\t0\n",
            b"plan\t0\t1\n",
            b"plan\t0\t0\n\n",
            b"plan\t0\t\xff\n",
            b"plan\t1\t1\npiece\t1\tt\thalf\t1\t1\t0\t1\n",
            b"plan\t1\t1\npiece\t1\tt\twhole\t1\t1\t0\n",
        ] {
            assert_eq!(Listing::parse(bytes), None);
        }
    }

    #[test]
    fn halves_stand_side_by_side() {
        let bytes = b"plan\t2\t3
piece\t1\ta\tfirst\t4\t4\t0\t4
piece\t2\ta\tlast\t2\t6\t0\t3
piece\t2\tb\twhole\t6\t10\t0\t6
";
        let listing = Listing::parse(bytes).unwrap();
        let splits = listing.splits();
        assert_eq!(splits.len(), 1);
        assert_eq!((splits[0].0.core, splits[0].1.core), (1, 2));
        assert_eq!(listing.on_core(2).count(), 2);
        assert_eq!(listing.on_core(3).count(), 0);
    }
}
