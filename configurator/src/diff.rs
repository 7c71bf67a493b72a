//! The lines of what moved between two plans, parsed back into figures, for tables, pages and JSON
//! (document 02, E3). The figures are those that the proved library wrote; that they add up is looked
//! at once more.
//!
//! Behind a header `diff` with the number of tasks of each plan there is a line for each piece of a task
//! that the plans do not place alike: `only1`, `only2`, or `was` and `now`, then the name, the core and
//! the piece.

use crate::listing::Kind;
use std::array;
use std::slice;
use std::str;

/// What moved from a first plan to a second.
#[derive(Clone, Debug, PartialEq, Eq)]
pub struct Diff<'a> {
    /// The tasks of each plan.
    pub plans: [usize; 2],
    /// The tasks that are not placed alike, by name in byte order.
    pub tasks: Vec<Task<'a>>,
}

/// A task that the plans do not place alike.
#[derive(Clone, Debug, PartialEq, Eq)]
pub struct Task<'a> {
    /// Its name.
    pub name: &'a str,
    /// Its pieces in the first plan, by core; none where only the second has the task.
    pub was: Vec<Piece>,
    /// Its pieces in the second plan, by core; none where only the first has the task.
    pub now: Vec<Piece>,
}

/// A piece, by all that counts when two are compared.
#[derive(Clone, Copy, Debug, PartialEq, Eq)]
pub struct Piece {
    /// The core, from 1.
    pub core: usize,
    /// Whether it is the whole task or which part of it.
    pub kind: Kind,
    /// Its figures: [`FIELDS`] has their names, behind those of core and kind.
    pub figures: [u32; 6],
}

/// The names of a piece's fields, in the lines' order.
pub const FIELDS: [&str; 8] = [
    "core", "kind", "budget", "window", "period", "jitter", "P", "M",
];

/// What became of a task.
#[derive(Clone, Copy, Debug, PartialEq, Eq)]
pub enum Fate {
    /// It is in both plans, with other pieces or on other cores.
    Moved,
    /// It is only in the second plan.
    Came,
    /// It is only in the first plan.
    Went,
}

impl<'a> Diff<'a> {
    /// The figures of what moved; nothing if the bytes are no such text, or do not add up, which those of
    /// the library always do.
    ///
    /// ```
    /// use configurator::diff::{Diff, Fate};
    ///
    /// let text = b"diff\t4\t3
    /// was\tfeed\t1\tfirst\t4\t4\t10\t0\t0\t1
    /// was\tfeed\t2\tlast\t2\t6\t10\t0\t0\t1
    /// now\tfeed\t2\twhole\t4\t10\t10\t0\t0\t1
    /// only1\tpress\t1\twhole\t6\t10\t10\t0\t0\t1
    /// ";
    /// let diff = Diff::parse(text).unwrap();
    /// assert_eq!((diff.tasks[0].was.len(), diff.tasks[0].now[0].core), (2, 2));
    /// assert_eq!([Fate::Moved, Fate::Came, Fate::Went].map(|fate| diff.count(fate)), [1, 0, 1]);
    /// assert_eq!(diff.stayed(), 2);
    /// assert_eq!(Diff::parse(&text[..text.len() - 1]), None);
    /// ```
    #[must_use]
    pub fn parse(bytes: &'a [u8]) -> Option<Self> {
        let mut lines = str::from_utf8(bytes).ok()?.strip_suffix('\n')?.split('\n');
        let header: Vec<&str> = lines.next()?.split('\t').collect();
        let plans = match header[..] {
            ["diff", first, second] => [first.parse().ok()?, second.parse().ok()?],
            _ => return None,
        };
        let lines = lines.map(Line::parse).collect::<Option<Vec<_>>>()?;
        let mut tasks = Vec::new();
        let mut rest = &lines[..];
        while let Some(next) = rest.first() {
            let its = rest.iter().take_while(|line| line.name == next.name);
            let (its, behind) = rest.split_at(its.count());
            tasks.push(Task::of(its)?);
            rest = behind;
        }
        let diff = Diff { plans, tasks };
        diff.adds_up().then_some(diff)
    }

    /// Whether the names stand in byte order, each once, and both plans have as many tasks that stayed.
    fn adds_up(&self) -> bool {
        let ordered = self.tasks.windows(2).all(|two| two[0].name < two[1].name);
        let moved = self.count(Fate::Moved);
        let left = |plan: usize, lone| self.plans[plan].checked_sub(moved + self.count(lone));
        let stayed = left(0, Fate::Went);
        ordered && stayed.is_some() && stayed == left(1, Fate::Came)
    }

    /// How many tasks had that fate.
    #[must_use]
    pub fn count(&self, fate: Fate) -> usize {
        self.of(fate).count()
    }

    /// The tasks that had it, by name in byte order.
    pub fn of(&self, fate: Fate) -> impl Iterator<Item = &Task<'a>> {
        self.tasks.iter().filter(move |task| task.fate() == fate)
    }

    /// How many tasks both plans place alike.
    #[must_use]
    pub fn stayed(&self) -> usize {
        let gone = self.count(Fate::Moved) + self.count(Fate::Went);
        self.plans[0].saturating_sub(gone)
    }

    /// The task of that name, if it is not placed alike.
    #[must_use]
    pub fn task(&self, name: &str) -> Option<&Task<'a>> {
        self.tasks.iter().find(|task| task.name == name)
    }
}

impl<'a> Task<'a> {
    /// The task that lines of one name tell of: `only1` or `only2` in all of them, or `was` in some and
    /// `now` in the rest.
    fn of(lines: &[Line<'a>]) -> Option<Self> {
        let (before, behind) = match lines.first()?.word {
            "only1" => ("only1", ""),
            "only2" => ("", "only2"),
            "was" => ("was", "now"),
            _ => return None,
        };
        let cut = lines.iter().take_while(|line| line.word == before).count();
        let (was, now) = lines.split_at(cut);
        let worded = now.iter().all(|line| line.word == behind);
        let whole = behind != "now" || !now.is_empty();
        let [was, now] = [was, now].map(|lines| lines.iter().map(|line| line.piece).collect());
        let task = Task {
            name: lines.first()?.name,
            was,
            now,
        };
        let by_core = |pieces: &[Piece]| pieces.windows(2).all(|two| two[0].core < two[1].core);
        let ordered = by_core(&task.was) && by_core(&task.now) && task.was != task.now;
        (worded && whole && ordered).then_some(task)
    }

    /// What became of it.
    #[must_use]
    pub fn fate(&self) -> Fate {
        match (&self.was[..], &self.now[..]) {
            ([], _) => Fate::Came,
            (_, []) => Fate::Went,
            _ => Fate::Moved,
        }
    }
}

impl Piece {
    fn parse(fields: &[&str]) -> Option<Self> {
        let (core, kind, figures) = match fields {
            [core, kind, figures @ ..] => (core, kind, figures),
            _ => return None,
        };
        let figures = figures.iter().map(|figure| figure.parse().ok());
        Some(Piece {
            core: core.parse().ok()?,
            kind: Kind::of(kind)?,
            figures: figures.collect::<Option<Vec<_>>>()?.try_into().ok()?,
        })
    }

    /// Its fields, in the order of [`FIELDS`].
    #[must_use]
    pub fn fields(&self) -> [String; 8] {
        let [budget, window, period, jitter, p, m] = self.figures.map(|figure| figure.to_string());
        let (core, kind) = (self.core.to_string(), self.kind.word().to_owned());
        [core, kind, budget, window, period, jitter, p, m]
    }

    /// Which of its fields are new beside the pieces that its task had: [`FIELDS`] has their order. A piece
    /// is held against the one of its kind, and where there was none, against all of them.
    ///
    /// ```
    /// use configurator::diff::{Diff, FIELDS};
    ///
    /// let text = b"diff\t1\t1
    /// was\tfeed\t1\twhole\t6\t10\t10\t0\t0\t1
    /// now\tfeed\t1\tfirst\t4\t4\t10\t0\t0\t1
    /// now\tfeed\t2\tlast\t2\t6\t10\t0\t0\t1
    /// ";
    /// let feed = &Diff::parse(text).unwrap().tasks[0];
    /// let new = FIELDS.iter().zip(feed.now[0].new_beside(&feed.was));
    /// let new: Vec<&str> = new.filter(|(_, new)| *new).map(|(name, _)| *name).collect();
    /// assert_eq!(new, ["kind", "budget", "window"]);
    /// ```
    #[must_use]
    pub fn new_beside(&self, was: &[Piece]) -> [bool; 8] {
        let own = self.fields();
        let alike = was.iter().find(|piece| piece.kind == self.kind);
        let held = alike.map_or(was, slice::from_ref);
        let held: Vec<[String; 8]> = held.iter().map(Piece::fields).collect();
        array::from_fn(|at| held.iter().all(|held| held[at] != own[at]))
    }
}

/// A line behind the header.
struct Line<'a> {
    word: &'a str,
    name: &'a str,
    piece: Piece,
}

impl<'a> Line<'a> {
    fn parse(line: &'a str) -> Option<Self> {
        let fields: Vec<&str> = line.split('\t').collect();
        match fields[..] {
            [word, name, ref piece @ ..] => Some(Line {
                word,
                name,
                piece: Piece::parse(piece)?,
            }),
            _ => None,
        }
    }
}

#[cfg(test)]
mod tests {
    use super::*;

    const MOVED: &str = "diff\t3\t4
only2\ta\t1\twhole\t1\t10\t10\t0\t2\t3
was\tb\t1\tfirst\t4\t4\t10\t0\t0\t1
was\tb\t2\tlast\t2\t6\t10\t0\t0\t1
now\tb\t1\tfirst\t4\t4\t10\t0\t0\t1
now\tb\t3\tlast\t2\t6\t10\t5\t0\t1
only2\tc\t2\tfirst\t4\t4\t10\t0\t0\t1
only2\tc\t3\tlast\t2\t6\t10\t0\t0\t1
only1\td\t1\twhole\t6\t10\t10\t0\t0\t1
";

    #[test]
    fn tasks_by_their_fates() {
        let diff = Diff::parse(MOVED.as_bytes()).unwrap();
        let names = |fate| diff.of(fate).map(|task| task.name).collect::<Vec<_>>();
        assert_eq!(names(Fate::Moved), ["b"]);
        assert_eq!(names(Fate::Came), ["a", "c"]);
        assert_eq!(names(Fate::Went), ["d"]);
        assert_eq!((diff.stayed(), diff.task("c").unwrap().now.len()), (1, 2));
        assert_eq!(diff.task("e"), None);
    }

    /// The first piece of `b` is the same in both plans; the last has another core and another jitter.
    #[test]
    fn what_is_new_about_a_piece() {
        let diff = Diff::parse(MOVED.as_bytes()).unwrap();
        let b = diff.task("b").unwrap();
        let new = |piece: &Piece, was: &[Piece]| {
            let fields = FIELDS.into_iter().zip(piece.new_beside(was));
            let new: Vec<&str> = fields
                .filter(|(_, new)| *new)
                .map(|(name, _)| name)
                .collect();
            new
        };
        assert!(new(&b.now[0], &b.was).is_empty());
        assert_eq!(new(&b.now[1], &b.was), ["core", "jitter"]);
        assert_eq!(new(&b.was[1], &b.now), ["core", "jitter"]);
        let d = diff.task("d").unwrap();
        assert_eq!(new(&d.was[0], &d.now), FIELDS);
    }

    /// What has another form or another order is no such text, and neither is what does not add up.
    #[test]
    fn what_is_no_text_of_two_plans() {
        for (from, to) in [
            ("diff", "plan"),
            ("diff\t3\t4", "diff\t3"),
            ("diff\t3\t4", "diff\t3\t5"),
            ("diff\t3\t4", "diff\t1\t2"),
            ("only2\ta", "only3\ta"),
            ("only2\ta", "now\ta"),
            ("only2\ta", "was\ta"),
            ("only2\ta\t", "only2\te\t"),
            ("only2\ta\t", "only2\ta\t\t"),
            ("only2\ta\t1", "only2\ta\tx"),
            ("\twhole", "\tmiddle"),
            ("\t2\t3\n", "\t2\n"),
            ("\t2\t3\n", "\t2\t3\t4\n"),
            ("\t2\t3\n", "\t2\t-3\n"),
            ("was\tb\t1", "was\tb\t2"),
            ("was\tb\t2", "now\tb\t2"),
            ("now\tb\t3", "was\tb\t3"),
            (
                "now\tb\t3\tlast\t2\t6\t10\t5",
                "now\tb\t2\tlast\t2\t6\t10\t0",
            ),
            ("only2\tc\t3", "only1\tc\t3"),
            ("only1\td\t1\twhole\t6\t10\t10\t0\t0\t1\n", ""),
            ("only1\td\t1\twhole\t6\t10\t10\t0\t0\t1\n", "\n"),
            ("0\t0\t1\nonly1", "0\t0\t\u{e9}\nonly1"),
        ] {
            let changed = MOVED.replacen(from, to, 1);
            assert_ne!(changed, MOVED);
            assert_eq!(Diff::parse(changed.as_bytes()), None, "{changed}");
        }
        for bytes in [&b""[..], b"\n", b"diff\t0\t0", b"diff\t0\t\xff\n"] {
            assert_eq!(Diff::parse(bytes), None);
        }
    }
}
