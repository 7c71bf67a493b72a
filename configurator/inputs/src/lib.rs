//! What tests and benches are fed with, for the library and the oracle alike.
//!
//! - [`random`]: random numbers from a seed that is printed.
//! - [`cores`]: cores by hand, at random, and as the bytes that the library is lent.
//! - [`sheets`]: sheets and scripts at random, and damaged.
//! - [`strategies`]: sheets that shrink, so that a failure is told by a small one.
//! - [`pairs`]: pairs of sheets that shrink.
//! - [`stated`]: the cases with stated answers, in `tests/data`.

#![deny(missing_docs)]
#![forbid(unsafe_code)]
#![warn(clippy::all, clippy::pedantic)]

pub mod cores;
pub mod pairs;
pub mod random;
pub mod sheets;
pub mod stated;
pub mod strategies;

pub use random::{rounds, Random};
pub use stated::{bytes, cases, data};
