//! The oracle: document 01 and requests E1 to E3 of document 02 done the naive way, for tests to compare
//! the library with.
//!
//! It is written from these documents alone: it uses nothing of the front end, not even its types, and
//! never calls the library. Clarity goes before speed: the verdict looks at every length of the
//! judged span, and the walk tries every x from above.
//!
//! - [`piece`]: sizes, costs, a piece and its charge.
//! - [`demand`]: jobs due, interrupts, blocking, demand, busy length.
//! - [`verdict`]: the verdict on a core.
//! - [`records`]: the verdict on a lent run of records, given as bytes.
//! - [`refusal`]: a refusal's number and what it carries.
//! - [`task`]: names, times, tasks, the machine.
//! - [`sheet`]: reading a timing sheet.
//! - [`walk`]: packing order, split and the C=D walk.
//! - [`listing`]: a plan as text.
//! - [`desk`]: the three edits, and scripts of them.
//! - [`why`]: the reasons for a verdict.
//! - [`diff`]: two plans side by side.

#![deny(missing_docs)]
#![forbid(unsafe_code)]
#![warn(clippy::all, clippy::pedantic)]

pub mod demand;
pub mod desk;
pub mod diff;
pub mod listing;
pub mod piece;
pub mod records;
pub mod refusal;
pub mod sheet;
pub mod task;
pub mod verdict;
pub mod walk;
pub mod why;
