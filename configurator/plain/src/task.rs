//! Tasks, their names and times, and the machine: document 01, "Sizes".

use crate::piece::{Kind, Piece};

/// The most tasks of a list, and the most parts of a sheet.
pub const TASKS_MOST: usize = 64;

/// The most bytes of a name.
pub const NAME_MOST: usize = 24;

/// A name, formed or not. Names are equal when their lengths and all their bytes are equal.
pub type Name = Vec<u8>;

/// Whether a name is formed: 1 to 24 bytes from ASCII letters, digits, hyphen and full stop.
#[must_use]
pub fn formed(name: &[u8]) -> bool {
    let part_of_name = |&byte: &u8| byte.is_ascii_alphanumeric() || byte == b'-' || byte == b'.';
    (1..=NAME_MOST).contains(&name.len()) && name.iter().all(part_of_name)
}

/// The cores m and the grain.
#[derive(Clone, Copy, Debug, PartialEq, Eq)]
pub struct Machine {
    /// How many cores, m.
    pub cores: u64,
    /// What every split is a multiple of.
    pub grain: u64,
}

impl Machine {
    /// Whether m and the grain are within their sizes.
    #[must_use]
    pub fn sized(&self) -> bool {
        (1..=16).contains(&self.cores) && (1..=1_000_000).contains(&self.grain)
    }
}

/// The six numbers of a part, which are those of each task that it is fitted to.
#[derive(Clone, Copy, Debug, PartialEq, Eq)]
pub struct Times {
    /// The budget C.
    pub budget: u64,
    /// The deadline D.
    pub deadline: u64,
    /// The period T.
    pub period: u64,
    /// The jitter J.
    pub jitter: u64,
    /// The cache charge P of a preemption.
    pub preemption: u64,
    /// The cache charge M of a migration.
    pub migration: u64,
}

impl Times {
    /// The times of six numbers in the sheet's order.
    #[must_use]
    pub fn from_numbers(numbers: [u64; 6]) -> Self {
        let [budget, deadline, period, jitter, preemption, migration] = numbers;
        Times {
            budget,
            deadline,
            period,
            jitter,
            preemption,
            migration,
        }
    }

    /// The whole piece of a task with these times.
    #[must_use]
    pub fn whole_piece(&self) -> Piece {
        Piece {
            kind: Kind::Whole,
            budget: self.budget,
            window: self.deadline,
            period: self.period,
            jitter: self.jitter,
            preemption: self.preemption,
            migration: self.migration,
        }
    }

    /// Whether every number is within its size and 1 ≤ C ≤ D ≤ T: the rule for a record.
    #[must_use]
    pub fn sized(&self) -> bool {
        self.whole_piece().sized()
    }
}

/// A task.
#[derive(Clone, Debug, PartialEq, Eq)]
pub struct Task {
    /// What it is called.
    pub name: Name,
    /// Its part's times.
    pub times: Times,
}
