//! Refusals: document 01, "Refusal numbers".

/// Why something is refused, by document 01's number, with what the refusal carries: a line, a
/// record's or a task's place from 1, a length, or 0 for nothing.
#[derive(Clone, Copy, Debug, PartialEq, Eq)]
pub struct Refusal {
    /// Document 01's number.
    pub number: u8,
    /// What it carries.
    pub carries: u32,
}

impl Refusal {
    /// The refusal of that number, with what it carries.
    #[must_use]
    pub const fn new(number: u8, carries: u32) -> Self {
        Refusal { number, carries }
    }
}
