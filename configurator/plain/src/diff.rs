//! Two plans side by side: document 02, E3.
//!
//! The text has tabs between fields and a newline behind each line: `diff` with the numbers of tasks of
//! both plans; then a line a piece, by the task's name in byte order. A task that is in one plan alone
//! has lines `only1` or `only2`. One that is in both has lines `was` and then `now`, unless its pieces
//! are equal; each run of lines is by core. Charged time and place in the list don't count.

use std::collections::{BTreeMap, BTreeSet};

use crate::listing::{kind_word, put};
use crate::refusal::Refusal;
use crate::sheet::{self, Sheet};
use crate::task::Name;
use crate::verdict::Way;
use crate::walk::{walk, Plan};

/// A piece as it is compared and printed: its core from 1, its kind's word, and its budget, window,
/// period, jitter, P and M.
type Seen = (u64, &'static str, [u64; 6]);

/// Of each task of a plan, by its name, the pieces. Names are in byte order, and pieces by core.
type Seens = BTreeMap<Name, BTreeSet<Seen>>;

/// Why two sheets are not compared.
#[derive(Clone, Copy, Debug, PartialEq, Eq)]
pub enum Refused {
    /// The first sheet is refused.
    First(Refusal),
    /// The first is not, but the second is.
    Second(Refusal),
    /// Neither is, but the buffer is shorter than the text, which needs this many bytes.
    Short(u32),
}

/// What a plan of what the sheet says is compared by.
fn seens(sheet: &Sheet, plan: &Plan) -> Seens {
    let mut seens = Seens::new();
    for (core, row) in (1..).zip(&plan.rows) {
        for placed in row {
            let p = &placed.piece;
            let numbers = [
                p.budget,
                p.window,
                p.period,
                p.jitter,
                p.preemption,
                p.migration,
            ];
            let name = sheet.tasks[placed.task].name.clone();
            let pieces = seens.entry(name).or_default();
            pieces.insert((core, kind_word(p.kind), numbers));
        }
    }
    seens
}

/// The text of two plans, each with the sheet that it is of.
#[must_use]
pub fn of_plans(first: (&Sheet, &Plan), second: (&Sheet, &Plan)) -> Vec<u8> {
    let tasks = [first, second].map(|(sheet, _)| sheet.tasks.len());
    let (first, second) = (seens(first.0, first.1), seens(second.0, second.1));
    let mut text = format!("diff\t{}\t{}\n", tasks[0], tasks[1]).into_bytes();
    let names: BTreeSet<&Name> = first.keys().chain(second.keys()).collect();
    for name in names {
        let mut lines = |word, pieces| text.extend(of_pieces(word, name, pieces));
        match (first.get(name), second.get(name)) {
            (Some(was), Some(now)) if was == now => {}
            (Some(was), Some(now)) => {
                lines("was", was);
                lines("now", now);
            }
            (Some(was), None) => lines("only1", was),
            (None, Some(now)) => lines("only2", now),
            (None, None) => {}
        }
    }
    text
}

/// The lines of a task's pieces, each beginning with that word.
fn of_pieces(word: &str, name: &Name, pieces: &BTreeSet<Seen>) -> Vec<u8> {
    let mut text = Vec::new();
    for (core, kind, numbers) in pieces {
        text.extend(format!("{word}\t").bytes());
        text.extend(name);
        text.extend(format!("\t{core}\t{kind}").bytes());
        for number in numbers {
            text.extend(format!("\t{number}").bytes());
        }
        text.extend(b"\n");
    }
    text
}

/// From the bytes of two sheets to the text of their plans.
///
/// # Errors
///
/// The first sheet's refusal, or 7; then the second's.
///
/// ```
/// use plain::diff::{self, Refused};
/// use plain::refusal::Refusal;
/// use plain::verdict::Way::EveryLength;
///
/// let none = b"machine\t1\t1\ncost\t0\t0\t0\t0\t0\t0\t0\t0\t0\n";
/// let one = [&none[..], b"part\tp\t1\t2\t3\t4\t5\t6\nfit\tt\tp\n"].concat();
/// let refused = Refused::First(Refusal::new(7, 1)); // a jitter above D
/// assert_eq!(diff::of_sheets(&one, b"", EveryLength), Err(refused));
/// let text = b"diff\t0\t0\n".to_vec();
/// assert_eq!(diff::of_sheets(none, none, EveryLength), Ok(text));
/// ```
pub fn of_sheets(first: &[u8], second: &[u8], way: Way) -> Result<Vec<u8>, Refused> {
    let planned = |bytes| {
        let sheet = sheet::read(bytes)?;
        let plan = walk(&sheet, way)?;
        Ok((sheet, plan))
    };
    let (first, was) = planned(first).map_err(Refused::First)?;
    let (second, now) = planned(second).map_err(Refused::Second)?;
    Ok(of_plans((&first, &was), (&second, &now)))
}

/// What a lent buffer holds after the text was asked for, and the text's length.
///
/// # Errors
///
/// As [`of_sheets`], then that the buffer is too short; it then stays as it is.
pub fn write(first: &[u8], second: &[u8], buffer: &mut [u8], way: Way) -> Result<usize, Refused> {
    let text = of_sheets(first, second, way)?;
    put(&text, buffer).map_err(|refusal| Refused::Short(refusal.carries))
}

/// The number that stands for an answer, 2^32 · which + carries: which is 0 with the text's length, 100
/// and the number of the first sheet's refusal, 1100 and that of the second's, or 110.
#[must_use]
pub fn number(answer: Result<usize, Refused>) -> u64 {
    let (which, carries) = match answer {
        Ok(length) => (0, length as u64),
        Err(Refused::First(refusal)) => (100 + u64::from(refusal.number), refusal.carries.into()),
        Err(Refused::Second(refusal)) => {
            (1_100 + u64::from(refusal.number), refusal.carries.into())
        }
        Err(Refused::Short(needed)) => (110, needed.into()),
    };
    (which << 32) + carries
}
