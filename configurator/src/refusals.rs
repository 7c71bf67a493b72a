//! The table of refusals: document 01's number, what it means, and what to do. Every sentence about
//! a refusal, the report and the manual page read this table; where the cause is known, a remedy that
//! fits it better takes its place.

/// One refusal, for people.
#[derive(Clone, Copy, Debug, PartialEq, Eq)]
pub struct Entry {
    /// Document 01's number.
    pub number: u8,
    /// What it means. `{}` stands for what the refusal carries.
    pub meaning: &'static str,
    /// What to do.
    pub remedy: &'static str,
}

/// All refusals, by number.
pub const TABLE: [Entry; 10] = [
    Entry {
        number: 1,
        meaning: "the cores must be 1 to 16 and the grain 1 to 1,000,000",
        remedy: "correct the two numbers of the `machine` line: cores, then grain",
    },
    Entry {
        number: 2,
        meaning: "a cost must be at most 100,000",
        remedy: "correct the `cost` line; its nine constants count ticks, as all times do",
    },
    Entry {
        number: 3,
        meaning: "a time must be at most 1,000,000, a cache charge at most 100,000, and 1 ≤ C ≤ D ≤ T",
        remedy: "correct the times; where they are too long, take a longer tick for the whole sheet",
    },
    Entry {
        number: 4,
        meaning: "that name is already taken",
        remedy: "give this one another name, or take the line away if it stands there twice",
    },
    Entry {
        number: 5,
        meaning: "there is no part or task of that name",
        remedy: "write the name exactly as the line that defines it; upper and lower case differ",
    },
    Entry {
        number: 6,
        meaning: "one too many; at most 64 parts, 64 tasks, 79 records",
        remedy: "take away what is not used, or share the tasks out over two controllers",
    },
    Entry {
        number: 7,
        meaning: "no core has room for task {}",
        remedy: "add a core, or give some task less work (C) or more time (D, T); a smaller grain can help too",
    },
    Entry {
        number: 8,
        meaning: "not formed as it should be, or cut short",
        remedy: "fields are parted by one tab, lines ended by one newline, the last line too; \
                 numbers have 1 to 7 digits, names 1 to 24 letters, digits, hyphens and full stops",
    },
    Entry {
        number: 9,
        meaning: "the sheet is longer than 16,384 bytes",
        remedy: "see that it is the right file; 64 parts and 64 tasks with short names always fit",
    },
    Entry {
        number: 10,
        meaning: "the listing needs {} bytes",
        remedy: "lend a buffer of that length",
    },
];

/// The entry of a number.
///
/// ```
/// use configurator::refusals;
///
/// assert_eq!(refusals::entry(4).unwrap().meaning, "that name is already taken");
/// assert_eq!(refusals::entry(11), None);
/// ```
#[must_use]
pub fn entry(number: u8) -> Option<&'static Entry> {
    TABLE.iter().find(|entry| entry.number == number)
}

#[cfg(test)]
mod tests {
    use super::*;

    #[test]
    fn each_number_stands_once() {
        let numbers: Vec<u8> = TABLE.iter().map(|entry| entry.number).collect();
        assert_eq!(numbers, (1..=10).collect::<Vec<u8>>());
    }
}
