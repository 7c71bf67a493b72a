//! What the tests share: the command as a process, comparisons of the library with the oracle, long
//! sheets, and the report's pages.

#![allow(dead_code)] // no test uses all of it

pub mod command;
pub mod compare;
pub mod diff;
pub mod listings;
pub mod long;
pub mod page;
pub mod why;

use configurator::{Answer, Refusal};
use plain::verdict::Verdict;

/// A refusal of the oracle as one of the library.
pub fn refusal(plain: plain::refusal::Refusal) -> Refusal {
    Refusal::new(plain.number, plain.carries)
}

/// A verdict of the oracle as an answer of the library.
pub fn answer(plain: Verdict) -> Answer {
    match plain {
        Verdict::Passes => Answer::Passes,
        Verdict::Overloaded(length) => Answer::Overloaded(length),
        Verdict::Undecided => Answer::Undecided,
    }
}
